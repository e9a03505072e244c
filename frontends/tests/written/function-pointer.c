// refused: 6 a call through the pointer handler
static int one(void) { return 1; }

int main(void) {
  int (*handler)(void) = one;
  return handler();
}
