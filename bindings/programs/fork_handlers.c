/* Threads use a library whose fork handlers allocate, the main thread forks, and each child uses it too. */
#include "churn.h"
#include <pthread.h>
#include <stdatomic.h>

void use_library(void);

static atomic_bool ends;

static void *use(void *nothing) {
    while (!ends) use_library();
    return nothing;
}

int main(void) {
    pthread_t threads[3];
    int good = 0, all = 100;
    for (int i = 0; i < 3; i++) pthread_create(&threads[i], NULL, use, NULL);
    for (int i = 0; i < all; i++) {
        pid_t child = fork();
        if (child == 0) {
            use_library();
            _exit(churn(100, 2000) ? 0 : 1);
        }
        good += ended_well(child);
    }
    ends = true;
    for (int i = 0; i < 3; i++) pthread_join(threads[i], NULL);
    printf("%d of %d children ended well\n", good, all);
    return 0;
}
