/* An elevator goes to the floor that is wanted, one floor at a time. */
#include <assert.h>
#define TOP 9
extern int __VERIFIER_nondet_int(void);

static int floor;

int main(void) {
  while (1) {
    int wanted = __VERIFIER_nondet_int();
    if (wanted < 0 || wanted > TOP)
      continue;
  CALLED:
    while (floor != wanted) {
      if (floor < wanted)
        floor++;
      else
        floor--;
    }
  THERE:
    assert(floor >= 0 && floor <= TOP);
  }
}
