// ask: assert = Proved yes
// run: m o t n
#include <assert.h>
int m, o, t, n;
extern int __VERIFIER_nondet_int(void);
int main(void) {
  int x = __VERIFIER_nondet_int();
  if (x < -5000 || x > 5000) return 0;
  m = x & 15;
  o = x | 4;
  t = x ^ 8;
  n = x & ~3;
  assert(m >= 0 && m <= 15);
  assert(n <= x && x <= n + 3);
  assert(o >= x && o <= x + 4);
  assert(~x == -x - 1);
  return 0;
}
