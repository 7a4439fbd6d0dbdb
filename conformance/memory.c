/* Refuses a program one allocation. It is loaded before the program's other libraries, by LD_PRELOAD. MELT_REFUSE says which allocation,
   counted from 1; 0 is none of them. Once it was asked for, a byte goes to the descriptor that MELT_REFUSED names. */
#define _GNU_SOURCE
#include <dlfcn.h>
#include <stdatomic.h>
#include <stdlib.h>
#include <unistd.h>

static atomic_ulong asked;
static unsigned long refused;
static int told;

/* What the loader and the libraries take before this is not counted: the program has not begun. */
__attribute__((constructor)) static void begin(void)
{
    const char *number = getenv("MELT_REFUSE"), *descriptor = getenv("MELT_REFUSED");

    if (number && descriptor) {
        told = atoi(descriptor);
        refused = strtoul(number, NULL, 10);
    }
}

static int is_refused(void)
{
    if (!refused || atomic_fetch_add(&asked, 1) + 1 != refused)
        return 0;
    if (write(told, "x", 1) != 1)
        abort();
    return 1;
}

void *malloc(size_t size)
{
    static void *(*real)(size_t);

    if (!real)
        real = (void *(*)(size_t))dlsym(RTLD_NEXT, "malloc");
    return is_refused() ? NULL : real(size);
}

void *realloc(void *old, size_t size)
{
    static void *(*real)(void *, size_t);

    if (!real)
        real = (void *(*)(void *, size_t))dlsym(RTLD_NEXT, "realloc");
    return is_refused() ? NULL : real(old, size);
}
