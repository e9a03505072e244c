// ask: ctl:[AF](at(error)||at(exit)) = Proved yes
// ask: error = Disproved no
// ask: assert = Proved yes
// words: error = --safety error_
// words: ctl:[AF](at(error)||at(exit)) = --ctl '[AF](at(error_) || at(exit))'
#include <assert.h>
extern _Bool __VERIFIER_nondet_bool(void);
int main(void) {
  if (__VERIFIER_nondet_bool())
    goto error;
  return 0;
error:
  assert(1);
  return 1;
}
