/* A ring buffer: the indices stay in range, and it never holds more than it has room for. */
#include <assert.h>
#include <stdbool.h>
#include <stdint.h>
#define ROOM 16
extern bool __VERIFIER_nondet_bool(void);
extern uint8_t __VERIFIER_nondet_uchar(void);

static struct ring {
  uint8_t bytes[ROOM];
  unsigned head, tail, held;
} ring;

static bool put(struct ring *r, uint8_t byte) {
  if (r->held == ROOM)
    return false;
  r->bytes[r->head] = byte;
  r->head = r->head + 1 == ROOM ? 0 : r->head + 1;
  r->held++;
  return true;
}

static bool get(struct ring *r, uint8_t *byte) {
  if (r->held == 0)
    return false;
  *byte = r->bytes[r->tail];
  r->tail = r->tail + 1 == ROOM ? 0 : r->tail + 1;
  r->held--;
  return true;
}

int main(void) {
  uint8_t byte = 0;
  while (1) {
    if (__VERIFIER_nondet_bool())
      put(&ring, __VERIFIER_nondet_uchar());
    else
      get(&ring, &byte);
    assert(ring.held <= ROOM && ring.head < ROOM && ring.tail < ROOM);
  }
}
