// ask: ctl:[AG](irq>=0&&irq<=1) = Proved yes
// ask: ctl:irq==0 = Proved yes
// run: irq
extern _Bool __VERIFIER_nondet_bool(void);
int irq;
int main(void) {
  for (int i = 0; i < 3; i++)
    irq = __VERIFIER_nondet_bool();
  return 0;
}
