/* The comparison that does not survive it: near to the wrap the wait may be over at once. */
#include <assert.h>
#include <stdint.h>
extern unsigned __VERIFIER_nondet_uint(void);

int main(void) {
  uint32_t start = __VERIFIER_nondet_uint(), now = start, until = start + 100;
  while (now < until)
    now++;
  assert(now != start);
  return 0;
}
