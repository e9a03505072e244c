/* A checksum over a packet, in 8 bits: it ends, and the sum does not overflow since it wraps. */
#include <stdint.h>
extern uint8_t __VERIFIER_nondet_uchar(void);
extern unsigned short __VERIFIER_nondet_ushort(void);

int main(void) {
  uint16_t length = __VERIFIER_nondet_ushort();
  uint8_t sum = 0;
  for (uint16_t at = 0; at < length; at++)
    sum += __VERIFIER_nondet_uchar();
  return sum;
}
