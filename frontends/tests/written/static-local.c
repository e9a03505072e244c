// ask: assert = Proved yes
// run: last
#include <assert.h>
int last;
static int count(void) {
  static int calls;
  calls++;
  return calls;
}
int main(void) {
  count();
  count();
  last = count();
  assert(last == 3);
  return 0;
}
