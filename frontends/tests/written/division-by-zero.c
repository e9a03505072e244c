// ask: overflow --bounds numbers = Disproved no
extern int __VERIFIER_nondet_int(void);
int main(void) {
  int b = __VERIFIER_nondet_int();
  if (b < 0) return 0;
  int c = 100 / b;
  return c;
}
