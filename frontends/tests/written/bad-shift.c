// ask: overflow --bounds numbers = Disproved no
extern unsigned char __VERIFIER_nondet_uchar(void);
int main(void) {
  int by = __VERIFIER_nondet_uchar();
  return 1u << by;
}
