// ask: assert = Proved yes
// run: q r
#include <assert.h>
int q, r;
extern int __VERIFIER_nondet_int(void);
int main(void) {
  int x = __VERIFIER_nondet_int();
  if (x < -1000 || x > 1000) return 0;
  q = x / 7;
  r = x % 7;
  assert(x / -7 == -q && x % -7 == r);
  assert(-7 < r && r < 7);
  assert(x >= 0 || r <= 0);
  assert(-7 / 2 == -3 && -7 % 2 == -1);
  return 0;
}
