/* A loop over all bytes that never ends: the counter is too narrow for its bound. */
#include <stdint.h>

static int sum;

int main(void) {
  for (uint8_t byte = 0; byte < 256; byte++)
    sum = byte;
  return 0;
}
