// ask: assert:7 = Proved yes
// ask: assert:8 = Disproved no
#include <assert.h>
extern unsigned char __VERIFIER_nondet_uchar(void);
int main(void) {
  unsigned char x = __VERIFIER_nondet_uchar();
  assert(x < 256);
  assert(x < 255);
  return 0;
}
