/* A thermostat with hysteresis: the heater is off above the upper limit. */
#include <assert.h>
#include <stdbool.h>
extern int __VERIFIER_nondet_int(void);

static bool heater;

int main(void) {
  while (1) {
    int degrees = __VERIFIER_nondet_int();
    __VERIFIER_assume(degrees >= -40 && degrees <= 125);
    if (degrees > 22)
      heater = false;
    else if (degrees < 18)
      heater = true;
    assert(!(heater && degrees > 22));
  }
}
