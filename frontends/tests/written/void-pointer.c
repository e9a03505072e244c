// ask: assert = Proved yes
// run: dev.level
#include <assert.h>
struct dev { int level; int mode; } dev;
static void handler(void *data) {
  struct dev *d = (struct dev *)data;
  d->level = 4;
}
int main(void) {
  handler(&dev);
  assert(dev.level == 4);
  return 0;
}
