// ask: overflow --bounds numbers = Disproved no
extern int __VERIFIER_nondet_int(void);
int main(void) {
  int i = __VERIFIER_nondet_int();
  long l = i * 2;
  return l > 0;
}
