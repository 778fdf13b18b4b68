/* Where memcpy stands in the C library, counted from the library's start: of its several the one that is chosen on this processor. */
#define _GNU_SOURCE
#include <dlfcn.h>
#include <stdio.h>
#include <string.h>

int main(void)
{
    void *(*volatile copy)(void *, const void *, size_t) = memcpy;
    Dl_info library;
    if (!dladdr((void *)copy, &library))
        return 1;
    printf("0x%016lx\n", (unsigned long)((char *)copy - (char *)library.dli_fbase));
    return 0;
}
