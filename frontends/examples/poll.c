/* A device register is polled until a bit comes up, with a timeout. */
#include <stdint.h>
#define READY 0x04
#define TIMEOUT 1000

volatile uint8_t STATUS;

int main(void) {
  int left = TIMEOUT;
  while (!(STATUS & READY)) {
    if (--left == 0)
      return -1;
  }
  return 0;
}
