// refused: 4 not read as C: before: return
int main(void) {
  int x = 1
  return x;
}
