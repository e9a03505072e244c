// ask: assert = Proved yes
// run: left right
#include <assert.h>
int left, right;
extern short __VERIFIER_nondet_short(void);
int main(void) {
  short x = __VERIFIER_nondet_short();
  right = x >> 3;
  if (x >= 0) left = x << 3;
  assert(8 * right <= x && x < 8 * right + 8);
  assert(left >= 0);
  return 0;
}
