// ask: assert:10 = Proved yes
// ask: assert:11 = Disproved not known
// warns: 9 g, after the call of outside, which has no body
#include <assert.h>
int g = 1;
extern int outside(void);
int main(void) {
  int local = 1;
  outside();
  assert(local == 1);
  assert(g == 1);
  return 0;
}
