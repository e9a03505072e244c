// ask: assert = Proved yes
#include <assert.h>
extern int __VERIFIER_nondet_int(void);
enum plain { ONE = 1, TWO };
enum negative { LESS = -1, MORE };
int main(void) {
  enum plain e = ONE;
  enum negative n = LESS;
  assert(e >= 0 && n < 0);
  assert(e - 2 > 0);
  return 0;
}
