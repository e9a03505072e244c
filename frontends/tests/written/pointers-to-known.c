// ask: assert = Proved yes
// run: a g.x g.y
#include <assert.h>
struct pair { int x, y; };
int a;
struct pair g;
static void set(int *p, int v) { *p = v; }
static void swap(struct pair *p) { int t = p->x; p->x = p->y; p->y = t; }
static void outer(struct pair *p) { set(&p->x, 7); swap(p); }
int main(void) {
  struct pair *alias = &g;
  set(&a, 3);
  alias->y = 1;
  outer(&g);
  assert(a == 3 && g.x == 1 && g.y == 7);
  return 0;
}
