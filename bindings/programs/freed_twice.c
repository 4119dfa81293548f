/* freed_twice [inside]: frees a block twice, or an address in it. */
#include "churn.h"
#include <stdint.h>

int main(int count, char **words) {
    (void)words;
    volatile uintptr_t block = (uintptr_t)malloc(100);
    if (count > 1) {
        free((void *)(block + 16));
    } else {
        free((void *)block);
        free((void *)block);
    }
    printf("the program goes on\n");
    return 0;
}
