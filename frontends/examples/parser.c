/* A parser of frames: header, length, payload, checksum. From wherever it is it can come to wait for a header. */
#include <stdint.h>
extern unsigned char __VERIFIER_nondet_uchar(void);
enum state { HEADER, LENGTH, PAYLOAD, CHECK };

int main(void) {
  enum state state = HEADER;
  uint8_t left = 0;
  for (;;) {
    uint8_t byte = __VERIFIER_nondet_uchar();
    switch (state) {
    case HEADER:
    WAITING:
      if (byte == 0x7e)
        state = LENGTH;
      break;
    case LENGTH:
      left = byte;
      state = byte ? PAYLOAD : CHECK;
      break;
    case PAYLOAD:
      if (--left == 0)
        state = CHECK;
      break;
    case CHECK:
      state = HEADER;
      break;
    }
  }
}
