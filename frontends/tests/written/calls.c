// ask: assert = Proved yes
// run: total
#include <assert.h>
int total;
extern short __VERIFIER_nondet_short(void);
static int twice(int x) { return 2 * x; }
static int add(int a, int b) { total += a; return a + b; }
int main(void) {
  short s = __VERIFIER_nondet_short();
  int y = twice(twice(s));
  assert(y == 4 * s);
  y = add(add(1, 2), 3);
  assert(y == 6 && total == 4);
  return 0;
}
