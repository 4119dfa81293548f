/* fork_on_alarm [THREADS]: a handler of SIGALRM forks, while the program allocates in so many threads and the main one. What
 * the child finds is what its thread left half done, so it ends at once. */
#include "churn.h"
#include <pthread.h>
#include <signal.h>
#include <sys/time.h>

/* Handlers run in several threads at a time. */
static _Atomic int good, all;

static void on_alarm(int signal) {
    (void)signal;
    pid_t child = fork();
    if (child == 0) _exit(0);
    bool well = ended_well(child);
    good += well;
    all++;
}

static void *allocate(void *is_good) {
    while (all < 100) *(bool *)is_good &= churn(1000, 2000);
    return NULL;
}

int main(int count, char **words) {
    int threads = count > 1 ? atoi(words[1]) : 0;
    bool kept[17] = {0};
    pthread_t thread[16];
    struct sigaction action = {.sa_handler = on_alarm, .sa_flags = SA_RESTART};
    struct itimerval often = {{0, 500}, {0, 500}}, never = {0};
    sigaction(SIGALRM, &action, NULL);
    for (int i = 0; i <= threads; i++) kept[i] = true;
    for (int i = 0; i < threads && i < 16; i++) pthread_create(&thread[i], NULL, allocate, &kept[i]);
    setitimer(ITIMER_REAL, &often, NULL);
    allocate(&kept[threads]);
    setitimer(ITIMER_REAL, &never, NULL);
    bool all_kept = kept[threads];
    for (int i = 0; i < threads && i < 16; i++) {
        pthread_join(thread[i], NULL);
        all_kept = all_kept && kept[i];
    }
    printf("children of handlers: %s\n", good == all ? "all ended well" : "not all ended well");
    printf("bytes: %s\n", all_kept ? "all kept" : "not all kept");
    return 0;
}
