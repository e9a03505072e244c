// refused: 5 side effects without an order in the operands of +, on i
extern int __VERIFIER_nondet_int(void);
int main(void) {
  int i = __VERIFIER_nondet_int();
  return i++ + i;
}
