// ask: assert = Disproved no
#include <assert.h>
volatile unsigned char port;
int main(void) {
  port = 3;
  assert(port == 3);
  return 0;
}
