// ask: overflow = Proved yes
// warns: 6 / by a variable
extern int __VERIFIER_nondet_int(void);
int main(void) {
  int a = __VERIFIER_nondet_int(), b = __VERIFIER_nondet_int();
  return b > 0 && a / b > 3;
}
