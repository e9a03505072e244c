/* Refuses an allocation of a program, by its number among all from 1, or that and each one after it.
   REFUSE_FROM is the number, 0 for none; REFUSE_ON is 1 where those after it are refused too.
   At the end of the program the number of its allocations is written to the file that REFUSE_COUNT names. */
#include <errno.h>
#include <fcntl.h>
#include <stddef.h>
#include <stdlib.h>
#include <unistd.h>

extern void *__libc_malloc(size_t bytes);
extern void *__libc_calloc(size_t items, size_t bytes);
extern void *__libc_realloc(void *old, size_t bytes);

static unsigned long count, from;
static int on;

static unsigned long number_of(const char *name) {
    const char *text = getenv(name);
    unsigned long number = 0;
    for (; text != NULL && *text >= '0' && *text <= '9'; text++) {
        number = 10 * number + (unsigned long)(*text - '0');
    }
    return number;
}

/* what is allocated before the program's own code runs is not counted */
__attribute__((constructor)) static void begin(void) {
    from = number_of("REFUSE_FROM");
    on = number_of("REFUSE_ON") == 1;
    count = 0;
}

static int is_refused(void) {
    count++;
    if (from == 0 || count < from || (count > from && !on)) {
        return 0;
    }
    errno = ENOMEM;
    return 1;
}

void *malloc(size_t bytes) { return is_refused() ? NULL : __libc_malloc(bytes); }

void *calloc(size_t items, size_t bytes) { return is_refused() ? NULL : __libc_calloc(items, bytes); }

void *realloc(void *old, size_t bytes) { return is_refused() ? NULL : __libc_realloc(old, bytes); }

__attribute__((destructor)) static void end(void) {
    const char *name = getenv("REFUSE_COUNT");
    char digits[24];
    size_t first = sizeof digits;
    unsigned long left = count;
    int file;
    if (name == NULL) {
        return;
    }
    do {
        digits[--first] = (char)('0' + left % 10);
        left /= 10;
    } while (left > 0);
    file = open(name, O_WRONLY | O_CREAT | O_TRUNC, 0600);
    if (file >= 0) {
        if (write(file, digits + first, sizeof digits - first) < 0) {
            close(file);
            return;
        }
        close(file);
    }
}
