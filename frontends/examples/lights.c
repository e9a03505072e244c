/* Traffic lights at a crossing with a button for pedestrians. */
#include <stdbool.h>
extern bool __VERIFIER_nondet_bool(void);
enum light { RED, GREEN, YELLOW };

static enum light cars = RED;
static bool asked;

int main(void) {
  int seconds = 0;
  while (1) {
    if (__VERIFIER_nondet_bool())
      asked = true;
    switch (cars) {
    case RED:
      if (++seconds >= 10) {
        seconds = 0;
      TO_GREEN:
        cars = GREEN;
        asked = false;
      }
      break;
    case GREEN:
      if (asked || ++seconds >= 30) {
        seconds = 0;
        cars = YELLOW;
      }
      break;
    case YELLOW:
      if (++seconds >= 3) {
        seconds = 0;
      TO_RED:
        cars = RED;
      }
      break;
    }
  }
}
