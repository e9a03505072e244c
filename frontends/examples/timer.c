/* A table of timers as two counters: a sleep ends although the other one is started again and again. */
#include <stdint.h>
extern unsigned char __VERIFIER_nondet_uchar(void);

static uint8_t sleep_left, other_left;

int main(void) {
  while (1) {
    sleep_left = __VERIFIER_nondet_uchar();
  ASLEEP:
    while (sleep_left > 0) {
      sleep_left--;
      if (other_left == 0)
        other_left = __VERIFIER_nondet_uchar();
      else
        other_left--;
    }
  AWAKE:
    ;
  }
}
