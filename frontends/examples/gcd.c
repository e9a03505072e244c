/* The greatest common divisor by subtraction, of positive numbers. */
extern int __VERIFIER_nondet_int(void);

int main(void) {
  int one = __VERIFIER_nondet_int(), other = __VERIFIER_nondet_int();
  if (one <= 0 || other <= 0)
    return -1;
  while (one != other) {
    if (one > other)
      one -= other;
    else
      other -= one;
  }
  return one;
}
