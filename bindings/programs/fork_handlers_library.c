/* A library with a lock of its own, under which it allocates, and whose fork handlers take that lock and allocate. */
#include <pthread.h>
#include <stdlib.h>

static pthread_mutex_t own = PTHREAD_MUTEX_INITIALIZER;
static void *block;

static void allocate_again(void) {
    free(block);
    block = malloc(5000);
}

static void before(void) {
    pthread_mutex_lock(&own);
    allocate_again();
}

static void after(void) {
    allocate_again();
    pthread_mutex_unlock(&own);
}

void use_library(void) {
    pthread_mutex_lock(&own);
    allocate_again();
    pthread_mutex_unlock(&own);
}

__attribute__((constructor)) static void begin(void) {
    pthread_atfork(before, after, after);
}
