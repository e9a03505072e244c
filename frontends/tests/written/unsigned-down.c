// ask: termination = Disproved no
extern unsigned __VERIFIER_nondet_uint(void);
int main(void) {
  for (unsigned i = __VERIFIER_nondet_uint() & 7; i >= 0; i--)
    ;
  return 0;
}
