/* How many decimal digits a number has. */
extern unsigned __VERIFIER_nondet_uint(void);

int main(void) {
  unsigned number = __VERIFIER_nondet_uint();
  int digits = 0;
  do {
    number /= 10;
    digits++;
  } while (number != 0);
  return digits;
}
