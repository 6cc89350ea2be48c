/* Threads that wait, each in another call of the C library, for scripts that look at the stacks of a process. */
#define _GNU_SOURCE
#include <poll.h>
#include <pthread.h>
#include <semaphore.h>
#include <stdlib.h>
#include <time.h>
#include <unistd.h>

static pthread_mutex_t held = PTHREAD_MUTEX_INITIALIZER, lock = PTHREAD_MUTEX_INITIALIZER;
static pthread_cond_t never = PTHREAD_COND_INITIALIZER;
static pthread_barrier_t barrier;
static sem_t semaphore;
static int ends[2];

static void *in_lock(void *n) { return pthread_mutex_lock(&held) ? n : 0; }

static void *in_condition(void *n) {
    pthread_mutex_lock(&lock);
    while (!pthread_cond_wait(&never, &lock)) continue;
    return n;
}

static void *in_barrier(void *n) { return pthread_barrier_wait(&barrier) ? n : 0; }
static void *in_semaphore(void *n) { return sem_wait(&semaphore) ? n : 0; }

static void *in_read(void *n) {
    char byte;
    return read(ends[0], &byte, 1) ? n : 0;
}

static void *in_poll(void *n) {
    struct pollfd of = {ends[0], POLLIN, 0};
    return poll(&of, 1, -1) ? n : 0;
}

static void *in_sleep(void *n) {
    struct timespec time = {300, 0};
    return nanosleep(&time, 0) ? n : 0;
}

static int compare(const void *one, const void *other) {
    (void)one;
    (void)other;
    return pause();
}

static void *in_sort(void *n) {
    int numbers[9] = {9, 8, 7, 6, 5, 4, 3, 2, 1};
    qsort(numbers, 9, sizeof *numbers, compare);
    return n;
}

int main(void) {
    static void *(*const all[])(void *) = {in_lock, in_condition, in_barrier, in_semaphore, in_read, in_poll, in_sleep, in_sort};
    pthread_t thread;
    alarm(300);
    pthread_mutex_lock(&held);
    pthread_barrier_init(&barrier, 0, 2);
    sem_init(&semaphore, 0, 0);
    if (pipe(ends)) return 1;
    for (size_t i = 0; i < sizeof all / sizeof *all; i++) pthread_create(&thread, 0, all[i], 0);
    pthread_join(thread, 0);
    return 0;
}
