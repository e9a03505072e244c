// ask: assert = Proved yes
// ask: out = Disproved no
// run: taken error
#include <assert.h>
int taken, error;
extern int __VERIFIER_nondet_int(void);
int main(void) {
  error = -1;
  taken = 1;
  if (__VERIFIER_nondet_int() == 0) goto out;
  taken = 2;
  if (__VERIFIER_nondet_int() == 0) goto out;
  error = 0;
out:
  while (taken > 0) taken--;
  assert(taken == 0);
  return error;
}
