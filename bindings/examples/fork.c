/* Threads allocate while the program forks; each child allocates too. Under the preload, the lock is whole in each child. */
#include <pthread.h>
#include <stdio.h>
#include <stdlib.h>
#include <string.h>
#include <sys/wait.h>
#include <unistd.h>

static void *churn(void *rounds) {
    char *blocks[64] = {0};
    for (int i = 0; i < *(int *)rounds; i++) {
        free(blocks[i % 64]);
        blocks[i % 64] = malloc(i % 2000 + 1);
        memset(blocks[i % 64], i, i % 2000 + 1);
    }
    for (int i = 0; i < 64; i++) free(blocks[i]);
    return NULL;
}

int main(void) {
    int many = 200000, few = 1000, good = 0;
    pthread_t threads[3];
    for (int i = 0; i < 3; i++) pthread_create(&threads[i], NULL, churn, &many);
    for (int i = 0; i < 50; i++) {
        pid_t child = fork();
        if (child == 0) {
            churn(&few);
            _exit(0);
        }
        int status;
        waitpid(child, &status, 0);
        good += WIFEXITED(status) && WEXITSTATUS(status) == 0;
    }
    for (int i = 0; i < 3; i++) pthread_join(threads[i], NULL);
    printf("%d children ended well\n", good);
    return 0;
}
