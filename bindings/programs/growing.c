/* growing: an array grows by 64 KiB up to 64 MiB, and nothing else is allocated. Says how often it moved and how long that
 * took, by the processor. growing MOVES: whether it moved at most so often. */
#include "churn.h"
#include <time.h>

enum { STEP = 1 << 16, STEPS = 1 << 10 };

int main(int count, char **words) {
    unsigned char *array = NULL;
    int moves = 0;
    for (size_t i = 0; i < STEPS; i++) {
        unsigned char *grown = realloc(array, (i + 1) * STEP);
        if (grown == NULL) return 1;
        moves += grown != array;
        array = grown;
        memset(array + i * STEP, (int)i, STEP);
    }
    bool kept = true;
    for (size_t i = 0; i < STEPS; i++) kept = kept && array[i * STEP] == (unsigned char)i;
    if (count > 1) {
        printf("%s, %s\n", kept ? "all bytes kept" : "bytes lost", moves <= atoi(words[1]) ? "seldom moved" : "often moved");
    } else {
        printf("%d moves, %.1f ms\n", moves, 1e3 * clock() / CLOCKS_PER_SEC);
    }
    return 0;
}
