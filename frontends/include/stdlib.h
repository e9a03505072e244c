#ifndef C2T2_STDLIB_H
#define C2T2_STDLIB_H
#include <stddef.h>
#define EXIT_SUCCESS 0
#define EXIT_FAILURE 1
void abort(void);
void exit(int status);
void _Exit(int status);
void *malloc(size_t size);
void *calloc(size_t count, size_t size);
void *realloc(void *old, size_t size);
void free(void *old);
int abs(int value);
long labs(long value);
int rand(void);
void srand(unsigned int seed);
int atoi(const char *text);
#endif
