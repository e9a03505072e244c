// refused: 7 side effects without an order in the operands of -, on g
int g;
static int up(void) { return ++g; }
static int down(void) { return --g; }

int main(void) {
  return up() - down();
}
