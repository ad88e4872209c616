/* Eight threads work in three projects, at most three of them at once. Each steps aside once for something that it waits for. */
#include <pthread.h>
#include <stdio.h>
#include <stdlib.h>
#include <wakhurmi.h>

enum { WORKERS = 8, MOST = 3, PROJECTS = 3 };

static wakhurmi_service *service;

static void demand(wakhurmi_answer answer, const char *call) {
    if (answer == WAKHURMI_OK) return;
    fprintf(stderr, "%s answered %d\n", call, (int)answer);
    exit(1);
}

static void *work(void *argument) {
    uint32_t worker = (uint32_t)(size_t)argument;
    /* A worker of project 2 needs project 0 too, and gets both at once. */
    uint32_t projects[] = {0, worker % PROJECTS};
    uint32_t first = projects[1] == 2 ? 0 : 1;
    demand(wakhurmi_take(service, worker, projects + first, 2 - first), "take");
    /* .. work on the project .. */
    demand(wakhurmi_enter(service, worker), "enter");
    /* .. wait for a file, a socket or another program, with no lease and no lock .. */
    demand(wakhurmi_leave(service, worker), "leave");
    /* .. work on .. */
    demand(wakhurmi_hand_back(service, worker), "hand_back");
    return NULL;
}

static void print_history(void) {
    char buffer[4096];
    uint64_t place = 0;
    size_t written;
    for (;;) {
        demand(wakhurmi_history(service, &place, buffer, sizeof buffer, &written), "history");
        if (written == 0) return;
        fwrite(buffer, 1, written, stdout);
    }
}

int main(void) {
    // A plan's run has the all-projects lock behind those of its projects. It isn't taken here, but counts where a plan checks the history.
    demand(wakhurmi_open(WORKERS, MOST, PROJECTS + 1, &service), "open");
    pthread_t threads[WORKERS];
    for (size_t worker = 0; worker < WORKERS; worker++) pthread_create(&threads[worker], NULL, work, (void *)worker);
    for (size_t worker = 0; worker < WORKERS; worker++) pthread_join(threads[worker], NULL);
    demand(wakhurmi_finish(service), "finish");
    print_history();
    wakhurmi_close(service);
    return 0;
}
