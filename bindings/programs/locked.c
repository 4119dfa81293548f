/* locked MIB: all memory is locked, and then so many MiB are allocated: whether at most half as much again is resident. */
#include "churn.h"
#include <sys/mman.h>

int main(int count, char **words) {
    size_t most = count > 1 ? (size_t)atoi(words[1]) : 64;
    if (mlockall(MCL_CURRENT | MCL_FUTURE) != 0) {
        perror("mlockall");
        return 1;
    }
    long before = from_status("VmRSS:");
    for (size_t i = 0; i < most * 1024; i++) {
        if (malloc(1000) == NULL) return 1;
    }
    long more = from_status("VmRSS:") - before;
    fprintf(stderr, "%ld KiB before, %ld more for %zu MiB\n", before, more, most);
    printf("%s\n", more < (long)most * 1024 * 3 / 2 && before < 32 * 1024 ? "as much as it takes" : "more than it takes");
    return 0;
}
