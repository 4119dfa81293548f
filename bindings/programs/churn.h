/* What the programs of this folder share. */
#ifndef CHURN_H
#define CHURN_H

#include <stdbool.h>
#include <stdio.h>
#include <stdlib.h>
#include <string.h>
#include <sys/types.h>
#include <sys/wait.h>
#include <unistd.h>

/* Allocates, writes and frees blocks of up to `most` bytes. False where a byte is not as it was written. */
static inline bool churn(int rounds, size_t most) {
    unsigned char *blocks[64] = {0};
    bool good = true;
    for (int i = 0; i < rounds; i++) {
        unsigned char **block = &blocks[i % 64];
        if (*block != NULL) good = good && **block == (unsigned char)(i - 64);
        free(*block);
        size_t size = (size_t)i * 7919 % most + 1;
        *block = malloc(size);
        if (*block == NULL) return false;
        memset(*block, i, size);
    }
    for (int i = 0; i < 64; i++) free(blocks[i]);
    return good;
}

/* Whether a child ended with status 0. */
static inline bool ended_well(pid_t child) {
    int status;
    return child > 0 && waitpid(child, &status, 0) == child && WIFEXITED(status) && WEXITSTATUS(status) == 0;
}

/* The number of a line of /proc/self/status, in KiB. */
static inline long from_status(const char *name) {
    char line[256];
    long number = -1;
    FILE *file = fopen("/proc/self/status", "r");
    while (file != NULL && fgets(line, sizeof line, file) != NULL) {
        if (strncmp(line, name, strlen(name)) == 0) number = atol(line + strlen(name));
    }
    if (file != NULL) fclose(file);
    return number;
}

#endif
