// ask: assert = Disproved no
#include <assert.h>
int main(void) {
  for (int i = 0; i < 2; i++) {
    int x;
    if (i == 0) x = 1;
    assert(i != 1 || x == 1);
  }
  return 0;
}
