/* Clean-up paths of a probe function: each resource that was taken is given back where a later step fails. */
#include <assert.h>
#include <stdbool.h>
extern bool __VERIFIER_nondet_bool(void);

static int memory, irq, clock;

static int probe(void) {
  int error = -1;
  if (!__VERIFIER_nondet_bool())
    return error;
  memory = 1;
  if (!__VERIFIER_nondet_bool())
    goto free_memory;
  irq = 1;
  if (!__VERIFIER_nondet_bool())
    goto free_irq;
  clock = 1;
  return 0;

free_irq:
  irq = 0;
free_memory:
  memory = 0;
  return error;
}

int main(void) {
  if (probe() != 0)
    assert(!memory && !irq && !clock);
  else
    assert(memory && irq && clock);
  return 0;
}
