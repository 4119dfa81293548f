/* Another process sends signals while this one allocates; the handler forks, and the child runs its exit handlers. */
#include "churn.h"
#include <signal.h>

static volatile sig_atomic_t good, all;

static void on_signal(int signal) {
    (void)signal;
    pid_t child = fork();
    if (child == 0) exit(0);
    all++;
    good += ended_well(child);
}

static _Noreturn void send_signals(pid_t to) {
    for (int i = 0; i < 200; i++) {
        kill(to, SIGUSR1);
        usleep(500);
    }
    _exit(0);
}

int main(void) {
    struct sigaction action = {.sa_handler = on_signal, .sa_flags = SA_RESTART};
    sigaction(SIGUSR1, &action, NULL);
    pid_t parent = getpid(), sender = fork();
    if (sender == 0) send_signals(parent);
    while (waitpid(sender, NULL, WNOHANG) == 0) churn(1000, 2000);
    printf("children of handlers: %s\n", all > 0 && good == all ? "all ended well" : "not all ended well");
    return 0;
}
