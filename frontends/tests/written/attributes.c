// ask: assert = Proved yes
#include <assert.h>
typedef unsigned char byte __attribute__((aligned(4)));
extern void abort(void) __attribute__((__nothrow__, __leaf__)) __attribute__((__noreturn__));
extern int __VERIFIER_nondet_int(void);
static __inline int __attribute__((unused)) id(int x) { return __extension__ (x); }
void reach_error(void) { assert(0); }
static void __VERIFIER_assert(int cond) { if (!(cond)) { ERROR: { reach_error(); abort(); } } }
int main(void) {
  byte b = 7;
  __VERIFIER_assert(id(b) == 7);
  return 0;
}
