// ask: assert --entry handler = Disproved not known
#include <assert.h>
int g;
void handler(int *p) {
  g = 1;
  *p = 2;
  assert(g == 1);
}
