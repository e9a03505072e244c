// ask: assert = Proved yes
// run: seen
#include <assert.h>
int seen;
extern unsigned char __VERIFIER_nondet_uchar(void);
int main(void) {
  unsigned char which = __VERIFIER_nondet_uchar();
  switch (which) {
  default:
    seen = 100;
    break;
  case 1:
    seen = 1;
    /* fall through */
  case 2:
    seen += 2;
    break;
  case 300:
    seen = 300;
  }
  assert(which != 1 || seen == 3);
  assert(which != 2 || seen == 2);
  assert(which == 1 || which == 2 || seen == 100);
  return 0;
}
