/* 100 MB in blocks of 1000 bytes; half of them are freed from the end, and then all: whether the system has their pages. */
#include "churn.h"
#include <malloc.h>

enum { BLOCKS = 100000 };
static void *blocks[BLOCKS];

int main(void) {
    for (int i = 0; i < BLOCKS; i++) memset(blocks[i] = malloc(1000), 1, 1000);
    long all = from_status("VmRSS:");
    for (int i = BLOCKS - 1; i >= BLOCKS / 2; i--) free(blocks[i]);
    long half = from_status("VmRSS:");
    for (int i = 0; i < BLOCKS / 2; i++) free(blocks[i]);
    long none = from_status("VmRSS:");
    malloc_trim(0);
    long trimmed = from_status("VmRSS:");
    fprintf(stderr, "%ld, %ld, %ld, %ld KiB resident\n", all, half, none, trimmed);
    printf("half: %s\n", half < all - 35000 ? "given back" : "kept");
    printf("all: %s\n", none < all - 85000 ? "given back" : "kept");
    printf("trim: %s\n", trimmed <= none ? "good" : "bad");
    return 0;
}
