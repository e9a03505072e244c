// refused: 4 the old form of the definition of add, with its parameters declared behind the brackets
int add(a, b) int a; int b; { return a + b; }
int main(void) {
  return add(1, 2);
}
