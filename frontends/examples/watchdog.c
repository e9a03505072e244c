/* A watchdog counts down, and a task has to feed it before it bites. */
#include <assert.h>
#include <stdint.h>
#define PERIOD 8

static uint8_t watchdog = PERIOD;

static void feed(void) { watchdog = PERIOD; }

static void tick(void) {
  assert(watchdog > 0);
  watchdog--;
}

int main(void) {
  while (1) {
    int work = 0;
  REQ:
    while (work < 6) {
      tick();
      work++;
    }
  DONE:
    feed();
  }
}
