// ask: termination --int checked = Proved yes
// ask: overflow --bounds numbers = Disproved no
extern int __VERIFIER_nondet_int(void);
int main(void) {
  int step = __VERIFIER_nondet_int();
  if (step <= 0) return 0;
  for (int i = 0; i >= 0; i += step)
    ;
  return 0;
}
