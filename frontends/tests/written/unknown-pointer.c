// ask: assert = Disproved not known
// warns: 10 a, after a store through an unknown pointer
#include <assert.h>
int a = 1, b = 1;
extern _Bool __VERIFIER_nondet_bool(void);
int main(void) {
  int *p = &b;
  if (__VERIFIER_nondet_bool()) p = &a;
  int *q = p;
  *q = 5;
  assert(a == 1);
  return 0;
}
