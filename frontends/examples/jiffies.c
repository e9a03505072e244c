/* A wait that compares times in the way that survives the wrap of the counter. */
#include <stdint.h>
extern unsigned __VERIFIER_nondet_uint(void);

static uint32_t jiffies;

int main(void) {
  jiffies = __VERIFIER_nondet_uint();
  uint32_t until = jiffies + 100;
  while ((int32_t)(jiffies - until) < 0)
    jiffies++;
  return 0;
}
