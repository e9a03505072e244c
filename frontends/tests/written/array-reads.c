// ask: assert = Proved yes
// warns: 8 an element of an array
#include <assert.h>
unsigned char bytes[16];
int main(void) {
  int sum = 0;
  for (int i = 0; i < 16; i++)
    sum = bytes[i];
  assert(sum >= 0 && sum <= 255);
  return 0;
}
