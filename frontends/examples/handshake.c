/* Two sides of a handshake as one loop: each request is acknowledged. */
#include <stdbool.h>
extern bool __VERIFIER_nondet_bool(void);

static bool request, acknowledge;

int main(void) {
  while (1) {
    if (!request && !acknowledge) {
      if (__VERIFIER_nondet_bool()) {
      ASKED:
        request = true;
      }
    } else if (request && !acknowledge) {
      for (int busy = 5; busy > 0; busy--)
        ;
    ACKNOWLEDGED:
      acknowledge = true;
    } else if (request) {
      request = false;
    } else {
      acknowledge = false;
    }
  }
}
