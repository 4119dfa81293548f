/* Blocks until one is refused, with 64 MiB of data at most; then every second one is freed, and there is room for half of them
 * again. */
#include "churn.h"
#include <sys/resource.h>

enum { MOST = 100000 };
static char *blocks[MOST];

int main(void) {
    struct rlimit limit = {64 << 20, 64 << 20};
    setrlimit(RLIMIT_DATA, &limit);
    int all = 0, again = 0;
    while (all < MOST && (blocks[all] = malloc(2000)) != NULL) memset(blocks[all++], 1, 2000);
    for (int i = 0; i < all; i += 2) free(blocks[i]);
    for (int i = 0; i < all; i += 2) again += (blocks[i] = malloc(2000)) != NULL;
    printf("many: %s\n", all > 20000 && all < MOST ? "yes" : "no");
    printf("again: %s\n", again >= all / 2 ? "all" : "not all");
    return 0;
}
