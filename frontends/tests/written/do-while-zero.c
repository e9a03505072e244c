// ask: assert = Proved yes
// run: a
#include <assert.h>
int a;
extern _Bool __VERIFIER_nondet_bool(void);
int main(void) {
  do {
    if (__VERIFIER_nondet_bool()) break;
    a = 1;
    if (__VERIFIER_nondet_bool()) continue;
    a = 2;
  } while (0);
  assert(a >= 0 && a <= 2);
  return 0;
}
