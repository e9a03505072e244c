/* The same without a timeout: nothing says that the bit ever comes up. */
#include <stdint.h>
#define READY 0x04

volatile uint8_t STATUS;

int main(void) {
  while (!(STATUS & READY))
    ;
  return 0;
}
