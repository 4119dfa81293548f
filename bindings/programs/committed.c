/* committed: what the system has promised (Committed_AS of /proc/meminfo), as blocks of 1000 bytes are had until one is
 * refused or there are 100,000 of them, with a child that is forked and allocates, and as all are freed. */
#include "churn.h"
#include <fcntl.h>

enum { MOST = 100000 };
static char *blocks[MOST];

/* A line of /proc/meminfo, in KiB, read without any memory of the heap. */
static long from_meminfo(const char *name) {
    static char text[4096];
    int file = open("/proc/meminfo", O_RDONLY);
    ssize_t length = read(file, text, sizeof text - 1);
    close(file);
    text[length < 0 ? 0 : length] = 0;
    const char *line = strstr(text, name);
    return line == NULL ? -1 : atol(line + strlen(name));
}

int main(void) {
    long before = from_meminfo("Committed_AS:"), full, limit = from_meminfo("CommitLimit:");
    int all = 0, again = 0;
    char *large = malloc(1000);
    while (all < MOST && (blocks[all] = malloc(1000)) != NULL) memset(blocks[all++], 1, 1000);
    full = from_meminfo("Committed_AS:");
    for (int i = 0; i < all; i += 2) free(blocks[i]);
    for (int i = 0; i < all; i += 2) again += (blocks[i] = malloc(1000)) != NULL;
    for (int i = 0; i < all; i++) free(blocks[i]);
    free(large);
    pid_t child = fork();
    if (child == 0) _exit(churn(1000, 2000) ? 0 : 1);
    bool good = ended_well(child);
    printf("%d blocks, %s; limit %ld KiB; promised %ld before, %ld more for %d KiB of blocks, %ld more at the end; a child %s\n", all,
           again >= all / 2 ? "half of them again" : "not half of them again", limit, before, full - before, all * 1000 / 1024,
           from_meminfo("Committed_AS:") - before, good ? "ended well" : "failed");
    return 0;
}
