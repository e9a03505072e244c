// ask: assert = Proved yes
// run: one.a one.b two.a two.b
#include <assert.h>
struct pair { int a; unsigned char b; };
struct pair one = { .b = 5 }, two;
static int sum(struct pair p) { p.a += 10; return p.a + p.b; }
int main(void) {
  struct pair local = { 1, 300 };
  two = one;
  one = local;
  assert(two.a == 0 && two.b == 5 && one.b == 44);
  assert(sum(one) == 55 && one.a == 1);
  return 0;
}
