/* A ramp: the speed of a motor follows the wanted one, one step at a time, and stays within its limits. */
#include <assert.h>
#define FASTEST 200
extern int __VERIFIER_nondet_int(void);

static int speed;

static int limit(int value) {
  if (value > FASTEST)
    return FASTEST;
  if (value < -FASTEST)
    return -FASTEST;
  return value;
}

int main(void) {
  while (1) {
    int wanted = limit(__VERIFIER_nondet_int());
    if (speed < wanted)
      speed++;
    else if (speed > wanted)
      speed--;
    assert(speed >= -FASTEST && speed <= FASTEST);
  }
}
