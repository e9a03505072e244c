/* Flags of a device in one byte: it is never running and stopped at once. */
#include <assert.h>
#include <stdint.h>
#define RUNNING 0x01
#define STOPPED 0x02
#define FAULT 0x80
extern unsigned char __VERIFIER_nondet_uchar(void);

static uint8_t flags = STOPPED;

int main(void) {
  while (1) {
    switch (__VERIFIER_nondet_uchar()) {
    case 0:
      flags |= RUNNING;
      flags &= ~STOPPED;
      break;
    case 1:
      flags &= ~RUNNING;
      flags |= STOPPED;
      break;
    case 2:
      flags |= FAULT;
      break;
    }
    assert(!((flags & RUNNING) && (flags & STOPPED)));
  }
}
