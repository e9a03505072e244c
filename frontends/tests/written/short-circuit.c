// ask: assert = Proved yes
// run: a b
#include <assert.h>
int a, b;
extern int __VERIFIER_nondet_int(void);
int main(void) {
  int x = __VERIFIER_nondet_int();
  if (x > 0 && ++a) b = 1;
  if (x > 0 || ++a) b += 2;
  int y = (x > 0 ? a : (a += 5, a));
  assert(x > 0 ? a == 1 && b == 3 && y == 1 : a == 6 && b == 2 && y == 6);
  return 0;
}
