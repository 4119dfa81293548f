/* limits: under a limit of addresses, 8 threads with stacks of 1 MiB, a map of 8 MiB and blocks of 4 MB in all. */
#include "churn.h"
#include <pthread.h>
#include <sys/mman.h>

static void *allocate(void *good) {
    *(bool *)good = churn(2000, 1000);
    return NULL;
}

int main(void) {
    pthread_t threads[8];
    bool good[8] = {0};
    int begun = 0, kept = 0;
    pthread_attr_t small;
    pthread_attr_init(&small);
    pthread_attr_setstacksize(&small, 1 << 20);
    for (int i = 0; i < 8; i++) begun += pthread_create(&threads[i], &small, allocate, &good[i]) == 0;
    printf("%d threads began\n", begun);
    for (int i = 0; i < begun; i++) {
        pthread_join(threads[i], NULL);
        kept += good[i];
    }
    printf("%d kept their bytes\n", kept);
    void *map = mmap(NULL, 8 << 20, PROT_READ | PROT_WRITE, MAP_PRIVATE | MAP_ANONYMOUS, -1, 0);
    printf("a map: %s\n", map == MAP_FAILED ? "refused" : "given");
    int blocks = 0;
    for (int i = 0; i < 1000; i++) blocks += malloc(4000) != NULL;
    printf("%d blocks\n", blocks);
    return 0;
}
