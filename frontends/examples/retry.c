/* A request is sent again until it is answered, at most five times, and each wait is twice as long as the one before. */
#include <stdbool.h>
#define MOST 5
extern bool __VERIFIER_nondet_bool(void);

static int wait_ms = 10;

static bool send(void) { return __VERIFIER_nondet_bool(); }

int main(void) {
  int tries = 0;
  while (tries < MOST) {
    if (send())
      return 0;
    tries++;
    for (int ms = 0; ms < wait_ms; ms++)
      ;
    wait_ms = wait_ms * 2;
  }
  return 1;
}
