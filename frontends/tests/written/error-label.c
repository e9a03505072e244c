// ask: ERROR = Proved yes
// words: ERROR = --safety ERROR_
extern unsigned char __VERIFIER_nondet_uchar(void);
int main(void) {
  int x = __VERIFIER_nondet_uchar(), at = x, term = at;
  if (term > 255) {
ERROR:
    return 1;
  }
  return 0;
}
