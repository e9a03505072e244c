// ask: ctl:[AF](at(ACK)) = Proved yes
extern int __VERIFIER_nondet_int(void);
extern void __VERIFIER_assume(int);
int ack;
int main(void) {
  int x = __VERIFIER_nondet_int();
  __VERIFIER_assume(x > 0);
  while (x > 0) x--;
ACK:
  ack = 1;
  return 0;
}
