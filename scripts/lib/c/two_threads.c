/* Two threads that stop in the same calls, for scripts that look at the stacks of a process. */
#include <pthread.h>
#include <stdint.h>
#include <unistd.h>
#define KEPT __attribute__((noinline, noclone))

volatile uint64_t sink;

KEPT uint64_t leaf(uint64_t n) {
    for (;;) {
        sink += n * 31;
        n ^= sink;
    }
    return n;
}

KEPT uint64_t middle(uint64_t n) {
    volatile uint64_t a[32] = {n};
    a[n & 31] = leaf(n);
    return a[3] + a[n & 31];
}

KEPT uint64_t outer(uint64_t n) { return middle(n) + middle(n + 1) * 3; }
KEPT uint64_t deep(uint64_t n, int left) { return left ? deep(n, left - 1) + 1 : outer(n); }

KEPT void *work(void *n) {
    sink += deep((uint64_t)(uintptr_t)n, 5) + 1;
    return 0;
}

int main(void) {
    pthread_t other;
    alarm(300);
    pthread_create(&other, 0, work, (void *)7);
    work((void *)9);
    return (int)sink;
}
