// ask: assert = Proved yes
// run: big hex chars octal
#include <assert.h>
long big = 2147483648;
unsigned hex = 0x80000000;
int chars = '\xff';
int octal = 017;
int main(void) {
  assert(big > 0);
  assert(-hex == hex);
  assert(chars == -1);
  assert(octal == 15);
  assert(sizeof(1 ? 2147483648 : 1) == 8 || sizeof(long) == 8);
  return 0;
}
