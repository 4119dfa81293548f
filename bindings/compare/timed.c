/* timed REPEAT PRELOAD COMMAND..: runs a command REPEAT times with LD_PRELOAD (none: -), and prints the least time by the clock
 * and by the processor, in ms, and the least peak of resident memory, in KiB. */
#include <fcntl.h>
#include <stdio.h>
#include <stdlib.h>
#include <string.h>
#include <sys/resource.h>
#include <sys/wait.h>
#include <time.h>
#include <unistd.h>

static double now(void) {
    struct timespec time;
    clock_gettime(CLOCK_MONOTONIC, &time);
    return 1e3 * time.tv_sec + 1e-6 * time.tv_nsec;
}

static double in_ms(struct timeval time) {
    return 1e3 * time.tv_sec + 1e-3 * time.tv_usec;
}

static void keep_least(double *least, double number) {
    if (*least < 0 || number < *least) *least = number;
}

int main(int count, char **words) {
    double clock = -1, processor = -1, peak = -1;
    if (count < 4) return 64;
    for (int i = 0; i < atoi(words[1]); i++) {
        double began = now();
        pid_t child = fork();
        if (child == 0) {
            if (strcmp(words[2], "-") != 0) setenv("LD_PRELOAD", words[2], 1);
            dup2(open("/dev/null", O_WRONLY), 1);
            execvp(words[3], words + 3);
            _exit(127);
        }
        int status;
        struct rusage usage;
        if (wait4(child, &status, 0, &usage) != child || status != 0) {
            fprintf(stderr, "timed: %s ended with status %d\n", words[3], status);
            return 1;
        }
        keep_least(&clock, now() - began);
        keep_least(&processor, in_ms(usage.ru_utime) + in_ms(usage.ru_stime));
        keep_least(&peak, (double)usage.ru_maxrss);
    }
    printf("%.1f %.1f %.0f\n", clock, processor, peak);
    return 0;
}
