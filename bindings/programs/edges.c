/* Requests at the edges of what the functions take. */
#include "churn.h"
#include <errno.h>
#include <malloc.h>
#include <stdint.h>

static volatile size_t zero, huge = SIZE_MAX;

static void tell(const char *name, void *block, size_t align) {
    printf("%s: %s, errno %d\n", name, block == NULL ? "refused" : (uintptr_t)block % align == 0 ? "aligned" : "not aligned", errno);
    errno = 0;
    free(block);
}

int main(void) {
    void *block = NULL;
    errno = 0;
    tell("malloc(0)", malloc(zero), 16);
    tell("malloc(SIZE_MAX)", malloc(huge), 16);
    tell("malloc(SIZE_MAX / 2 - 100)", malloc(huge / 2 - 100), 16);
    tell("calloc(SIZE_MAX, 2)", calloc(huge, 2), 16);
    tell("calloc(0, 0)", calloc(zero, zero), 16);
    tell("memalign(0, 100)", memalign(zero, 100), 16);
    tell("memalign(24, 100)", memalign(24, 100), 32);
    tell("memalign(4096, 100)", memalign(4096, 100), 4096);
    tell("memalign(SIZE_MAX, 100)", memalign(huge, 100), 16);
    tell("memalign(1 << 40, 100)", memalign(zero + ((size_t)1 << 46), 100), 16);
    tell("aligned_alloc(24, 100)", aligned_alloc(24, 100), 32);
    tell("valloc(100)", valloc(100), 4096);
    tell("pvalloc(1)", pvalloc(1), 4096);
    tell("pvalloc(SIZE_MAX)", pvalloc(huge), 4096);
    printf("posix_memalign(24): %d\n", posix_memalign(&block, 24, 100));
    printf("posix_memalign(0): %d\n", posix_memalign(&block, zero, 100));
    printf("posix_memalign(64): %d\n", posix_memalign(&block, 64, 100));
    tell("its block", block, 64);
    printf("posix_memalign(64, SIZE_MAX): %d\n", posix_memalign(&block, 64, huge));
    void *volatile kept = malloc(100);
    errno = 0;
    tell("realloc(block, SIZE_MAX)", realloc(kept, huge), 16);
    printf("usable: %s\n", malloc_usable_size(kept) >= 100 && malloc_usable_size(NULL) == 0 ? "enough" : "too few");
    errno = 5;
    free(kept);
    printf("errno behind free: %d\n", errno);
    return 0;
}
