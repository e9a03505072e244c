/* A button is debounced: it counts as pressed after four equal readings. */
#include <assert.h>
#include <stdbool.h>
#include <stdint.h>
#define STEADY 4
extern bool __VERIFIER_nondet_bool(void);

struct button {
  bool pressed;
  uint8_t equal;
};

static void read(struct button *b, bool now) {
  if (now == b->pressed) {
    b->equal = 0;
  } else if (++b->equal >= STEADY) {
    b->pressed = now;
    b->equal = 0;
  }
}

int main(void) {
  struct button button = { false, 0 };
  while (1) {
    read(&button, __VERIFIER_nondet_bool());
    assert(button.equal < STEADY);
  }
}
