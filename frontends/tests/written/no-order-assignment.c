// refused: 4 side effects without an order in an assignment, on i
int main(void) {
  int i = 0;
  i = i++ + 1;
  return i;
}
