// ask: assert = Proved yes
// run: a b d
#include <assert.h>
unsigned char a = 255;
int b;
unsigned char d = 255;
int main(void) {
  b = a + 1;
  d += 1;
  assert(b == 256);
  assert(d == 0);
  assert(-1 < (unsigned char)1);
  assert(!(-1 < 1u));
  return 0;
}
