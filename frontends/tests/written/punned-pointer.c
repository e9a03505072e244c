// ask: assert = Disproved not known
// warns: 7 x, after a store through an unknown pointer
#include <assert.h>
int main(void) {
  int x = 1;
  unsigned char *byte = (unsigned char *)&x;
  *byte = 5;
  assert(x == 1);
  return 0;
}
