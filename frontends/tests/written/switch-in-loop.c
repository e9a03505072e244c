// ask: termination = Proved yes
// run: a
int a;
int main(void) {
  for (int i = 0; i < 10; i++) {
    switch (i & 1) {
    case 0: continue;
    case 1: break;
    }
    a += i;
  }
  return 0;
}
