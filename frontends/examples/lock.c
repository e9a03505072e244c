/* The lock protocol of a driver: it is never taken twice and never released when it is free. */
#include <assert.h>
extern int __VERIFIER_nondet_int(void);

static int locked;

static void lock(void) {
  assert(!locked);
  locked = 1;
}

static void unlock(void) {
  assert(locked);
  locked = 0;
}

int main(void) {
  int old, requests = 0;
  do {
    lock();
    old = requests;
    if (__VERIFIER_nondet_int()) {
      unlock();
      requests++;
    }
  } while (requests != old);
  unlock();
  return 0;
}
