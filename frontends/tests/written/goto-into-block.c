// ask: assert = Proved yes
// run: r
#include <assert.h>
int r;
extern _Bool __VERIFIER_nondet_bool(void);
int main(void) {
  if (__VERIFIER_nondet_bool()) goto inside;
  {
    int x = 3;
    r = x;
inside:
    x = 4;
    r += x;
  }
  assert(r == 7 || r == 4);
  return 0;
}
