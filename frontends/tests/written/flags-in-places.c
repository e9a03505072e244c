// ask: assert = Proved yes
// run: flags
#include <assert.h>
unsigned char flags = 2;
extern _Bool __VERIFIER_nondet_bool(void);
int main(void) {
  for (int i = 0; i < 6; i++) {
    if (__VERIFIER_nondet_bool()) { flags |= 1; flags &= ~2; }
    else { flags &= ~1; flags |= 2; }
    assert(flags == 1 || flags == 2);
  }
  return 0;
}
