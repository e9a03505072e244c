/* A transmitter: idle, start bit, eight data bits, stop bit. Each byte that is begun is sent. */
#include <assert.h>
#include <stdbool.h>
#include <stdint.h>
extern bool __VERIFIER_nondet_bool(void);
enum state { IDLE, START_BIT, DATA, STOP_BIT };

static struct {
  enum state state;
  uint8_t bit;
} uart;

int main(void) {
  for (;;) {
    switch (uart.state) {
    case IDLE:
      if (__VERIFIER_nondet_bool()) {
      BEGUN:
        uart.state = START_BIT;
      }
      break;
    case START_BIT:
      uart.bit = 0;
      uart.state = DATA;
      break;
    case DATA:
      assert(uart.bit < 8);
      if (++uart.bit == 8)
        uart.state = STOP_BIT;
      break;
    case STOP_BIT:
    SENT:
      uart.state = IDLE;
      break;
    }
  }
}
