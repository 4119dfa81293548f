/* Programs whose heap calls `tools/trace_test` has recorded: one for each word. None uses a stream, which would call
   the heap too. What is compared begins behind the block of 7001 bytes. */
#define _GNU_SOURCE
#include <errno.h>
#include <malloc.h>
#include <pthread.h>
#include <signal.h>
#include <stdint.h>
#include <stdlib.h>
#include <string.h>
#include <sys/wait.h>
#include <unistd.h>

extern void *__libc_malloc(size_t);

static void expect(int is) {
    if (!is) _exit(3);
}

/* Each kind of call. */
static void calls(void) {
    void *first = malloc(24), *none = malloc(0), *cleared = calloc(3, 5), *fresh = realloc(NULL, 7), *aligned;
    first = realloc(first, 100000);
    expect(realloc(none, 0) == NULL);
    expect(posix_memalign(&aligned, 64, 10) == 0 && (uintptr_t)aligned % 64 == 0);
    expect(aligned_alloc(16, 32) && memalign(48, 5) && valloc(9) && pvalloc(9));
    aligned = realloc(aligned, 20);
    aligned = realloc(aligned, 30);
    expect(reallocarray(cleared, 4, 4) != NULL);
    expect(strdup("abc") != NULL);
    free(fresh);
    free(first);
}

/* What gets no line, and what gets one without having been seen. */
static void refused(void) {
    volatile size_t huge = SIZE_MAX / 2;
    void *block = malloc(40), *kept = block;
    expect(!malloc(huge) && !calloc(huge, 3) && !realloc(block, huge) && !aligned_alloc(64, huge));
    expect(!reallocarray(block, huge, 3) && !pvalloc(SIZE_MAX));
    expect(posix_memalign(&kept, 64, huge) == ENOMEM && posix_memalign(&kept, 24, 8) == EINVAL && kept == block);
    free(NULL);
    free(__libc_malloc(50));
    block = realloc(__libc_malloc(50), 60);
    free(block);
}

#define SHARED 64
static void *_Atomic blocks[SHARED];

/* Takes a block that any thread left at some place, and leaves another. */
static void *share(void *seed) {
    uint32_t drawn = (uint32_t)(uintptr_t)seed;
    for (int call = 0; call < 500; call++) {
        drawn = drawn * 1664525 + 1013904223;
        void *_Atomic *place = &blocks[drawn >> 16 & (SHARED - 1)];
        void *was = __atomic_exchange_n((void **)place, NULL, __ATOMIC_SEQ_CST);
        if (drawn >> 30 == 0 && was)
            was = realloc(was, 1000 + (drawn >> 20));
        else {
            free(was);
            was = malloc(1000 + (drawn >> 23));
        }
        free(__atomic_exchange_n((void **)place, was, __ATOMIC_SEQ_CST));
    }
    return NULL;
}

static void threads(void) {
    pthread_t made[4];
    for (uintptr_t it = 0; it < 4; it++) expect(pthread_create(&made[it], NULL, share, (void *)(it + 1)) == 0);
    for (int it = 0; it < 4; it++) expect(pthread_join(made[it], NULL) == 0);
}

/* Two children, of which the second has a block more; each frees a block of the parent's. */
static void forks(void) {
    void *block = malloc(100);
    for (size_t child = 1; child <= 2; child++) {
        pid_t process = fork();
        if (process == 0) {
            free(block);
            expect(malloc(200 + child) != NULL);
            _exit(0);
        }
        waitpid(process, NULL, 0);
        expect(malloc(300 + child) != NULL);
    }
    free(block);
}

static void killed(void) {
    expect(malloc(5) && malloc(6));
    kill(getpid(), SIGKILL);
}

int main(int count, char **words) {
    const char *word = count > 1 ? words[1] : "";
    expect(malloc(7001) != NULL);
    if (!strcmp(word, "calls")) calls();
    if (!strcmp(word, "refused")) refused();
    if (!strcmp(word, "threads")) threads();
    if (!strcmp(word, "forks")) forks();
    if (!strcmp(word, "killed")) killed();
    if (!strcmp(word, "becomes")) execl(words[0], words[0], "refused", NULL);
    _exit(0);
}
