/* Threads read lines, each of which allocates with its stream locked, one flushes all streams, which waits for such locks
 * with the list of streams locked; the main thread forks, which takes that list too. */
#include "churn.h"
#include <pthread.h>
#include <stdatomic.h>

static atomic_bool ends;
static FILE *shared;

static void *read_lines(void *nothing) {
    while (!ends) {
        char *line = NULL;
        size_t size = 0;
        rewind(shared);
        while (getline(&line, &size, shared) > 0 && !ends) {
            free(line);
            line = NULL;
            size = 0;
        }
        free(line);
    }
    return nothing;
}

static void *open_files(void *nothing) {
    while (!ends) {
        FILE *file = fopen("/proc/self/maps", "r");
        char *line = NULL;
        size_t size = 0;
        if (file != NULL) {
            while (getline(&line, &size, file) > 0);
            fclose(file);
        }
        free(line);
    }
    return nothing;
}

static void *flush_all(void *nothing) {
    while (!ends) fflush(NULL);
    return nothing;
}

int main(void) {
    void *(*work[])(void *) = {read_lines, read_lines, open_files, flush_all};
    pthread_t threads[4];
    int good = 0, all = 100;
    shared = tmpfile();
    for (int i = 0; i < 1000; i++) fprintf(shared, "line %d of a file that threads read\n", i);
    for (int i = 0; i < 4; i++) pthread_create(&threads[i], NULL, work[i], NULL);
    for (int i = 0; i < all; i++) {
        pid_t child = fork();
        if (child == 0) _exit(churn(100, 2000) ? 0 : 1);
        good += ended_well(child);
    }
    ends = true;
    for (int i = 0; i < 4; i++) pthread_join(threads[i], NULL);
    printf("%d of %d children ended well\n", good, all);
    return 0;
}
