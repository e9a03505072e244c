// refused: 4 threads (pthread_create)
extern int pthread_create(void *, void *, void *(*)(void *), void *);
int main(void) {
  return pthread_create(0, 0, 0, 0);
}
