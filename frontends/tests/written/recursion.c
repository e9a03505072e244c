// refused: 3 recursion, of fact
static int fact(int n) {
  return n < 2 ? 1 : n * fact(n - 1);
}
int main(void) { return fact(5); }
