/* A binary search: the middle of two numbers as a sum that may overflow. */
extern int __VERIFIER_nondet_int(void);

int main(void) {
  int low = 0, high = __VERIFIER_nondet_int(), wanted = __VERIFIER_nondet_int();
  while (low < high) {
    int middle = (low + high) / 2;
    if (middle < wanted)
      low = middle + 1;
    else
      high = middle;
  }
  return low;
}
