// ask: assert = Proved yes
// ask: ctl:[AG](!at(L)||x<=limit*4) = Proved yes
// words: ctl:at(L)&&x==limit = --ctl '[AX](at(L) && x == 5)'
// run: x
#include <assert.h>
static int limit = 5;
int x;
extern unsigned char __VERIFIER_nondet_uchar(void);
int main(void) {
L:
  x = limit * (__VERIFIER_nondet_uchar() & 3);
  assert(x <= 15 && x >= 0);
  return 0;
}
