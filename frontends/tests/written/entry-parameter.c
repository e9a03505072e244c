// ask: assert --entry clamp = Proved yes
#include <assert.h>
int clamp(int x, unsigned char low) {
  int y = x < low ? low : x;
  assert(y >= 0 && y >= low);
  return y;
}
