// refused: 3 the name y, which is not declared
int main(void) {
  return y;
}
