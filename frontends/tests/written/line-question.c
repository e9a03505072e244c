// ask: main_9 = Disproved no
// ask: main_10 = Proved yes
// words: main_9 = --safety main_9
extern unsigned char __VERIFIER_nondet_uchar(void);
int main(void) {
  unsigned char x = __VERIFIER_nondet_uchar();
  if (x > 200) {
    x = 0;
    if (x)
      x = 2;
  }
  return x;
}
