/* A link comes up or is given up after a number of tries: one of the two on each run. */
#include <stdbool.h>
#define TRIES 8
extern bool __VERIFIER_nondet_bool(void);

int main(void) {
  int tries = 0, delay;
  while (tries < TRIES) {
    if (__VERIFIER_nondet_bool()) {
    UP:
      return 0;
    }
    delay = 1 << tries;
    while (delay > 0)
      delay--;
    tries++;
  }
DOWN:
  return 1;
}
