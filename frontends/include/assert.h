#undef assert
#ifdef NDEBUG
#define assert(condition) ((void)0)
#else
void __c2t2_assert(int condition);
#define assert(condition) __c2t2_assert(!!(condition))
#endif
#ifndef __cplusplus
#define static_assert _Static_assert
#endif
