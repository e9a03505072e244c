#ifndef C2T2_STDIO_H
#define C2T2_STDIO_H
#include <stddef.h>
typedef struct c2t2_file FILE;
extern FILE *stdin;
extern FILE *stdout;
extern FILE *stderr;
#define EOF (-1)
int printf(const char *form, ...);
int fprintf(FILE *file, const char *form, ...);
int scanf(const char *form, ...);
int puts(const char *text);
int putchar(int one);
int getchar(void);
#endif
