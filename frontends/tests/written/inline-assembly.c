// refused: 3 inline assembly
int main(void) {
  asm volatile("nop");
  return 0;
}
