#ifndef C2T2_STDDEF_H
#define C2T2_STDDEF_H
#if __C2T2__ == 64
typedef unsigned long size_t;
typedef long ptrdiff_t;
#else
typedef unsigned int size_t;
typedef int ptrdiff_t;
#endif
typedef int wchar_t;
#define NULL ((void *)0)
#endif
