// ask: overflow --bounds numbers = Proved yes
// ask: overflow = Proved yes
extern int __VERIFIER_nondet_int(void);
int main(void) {
  int i = __VERIFIER_nondet_int();
  long l = i * 2L;
  return l > 0;
}
