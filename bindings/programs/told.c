/* What mallinfo2 tells of blocks, of those that are freed, and of what malloc_trim gives back; and of all blocks what malloc_stats
 * tells, on standard error. */
#include "churn.h"
#include <malloc.h>

enum { BLOCKS = 3000 };
static void *blocks[BLOCKS];

int main(void) {
    struct mallinfo2 before = mallinfo2();
    for (int i = 0; i < BLOCKS; i++) blocks[i] = malloc(400);
    struct mallinfo2 full = mallinfo2();
    malloc_stats();
    for (int i = 0; i < BLOCKS; i += 2) free(blocks[i]);
    struct mallinfo2 half = mallinfo2();
    for (int i = 1; i < BLOCKS; i += 2) free(blocks[i]);
    malloc_trim(0);
    struct mallinfo2 none = mallinfo2();
    size_t least = (size_t)BLOCKS * 400;
    printf("in use: %s\n", full.uordblks - before.uordblks >= least && full.uordblks - before.uordblks < 2 * least ? "as much" : "not as much");
    printf("half in use: %s\n", half.uordblks + least / 2 <= full.uordblks && half.fordblks >= least / 2 ? "half" : "not half");
    printf("free chunks: %s\n", half.ordblks >= BLOCKS / 2 - 10 ? "as many" : "not as many");
    printf("trimmed: %s\n", none.uordblks < full.uordblks - least + 4096 && none.arena < full.arena ? "yes" : "no");
    return 0;
}
