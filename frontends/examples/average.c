/* The sum of clamped samples fits its type. */
#include <stdint.h>
#define SAMPLES 100
extern int __VERIFIER_nondet_int(void);

static int clamp(int value, int low, int high) {
  return value < low ? low : value > high ? high : value;
}

int main(void) {
  int sum = 0;
  for (int at = 0; at < SAMPLES; at++)
    sum += clamp(__VERIFIER_nondet_int(), -1000, 1000);
  return sum / SAMPLES;
}
