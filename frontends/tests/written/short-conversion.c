// ask: assert = Proved yes
// run: s c
#include <assert.h>
short s = 32767;
signed char c = 127;
int main(void) {
  s++;
  c += 2;
  assert(s == -32768);
  assert(c == -127);
  assert((short)70000 == 4464);
  return 0;
}
