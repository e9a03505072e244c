// ask: assert --model ilp32 = Proved yes
#include <assert.h>
#include <stddef.h>
int main(void) {
  assert(sizeof(long) == 4);
  assert(sizeof(size_t) == 4);
  assert(sizeof(long long) == 8);
  assert(-1L > 2147483647u);
  return 0;
}
