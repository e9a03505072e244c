// refused: --strict 7 an element of an array has no exact form (--strict)
int table[4];
extern int __VERIFIER_nondet_int(void);
int main(void) {
  int x = 0;
  if (__VERIFIER_nondet_int())
    x = table[2];
  return x;
}
