// refused: 4 a case with a range of values
int main(int argc, char **argv) {
  switch (argc) {
  case 1 ... 3: return 1;
  }
  return 0;
}
