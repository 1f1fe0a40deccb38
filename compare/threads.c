/* Every call on a thread that has no more stack than include/sootlark.h says is enough: SOOTLARK_ELEMENT_STACK for the calls that step
 * past elements, SOOTLARK_STACK for every other. One that needs more runs into the guard below its stack, and the program says which and
 * fails. Run by .ci/bindings. Two numbers after the program's name are taken for the two. */
#include "every_call.h"
#include <pthread.h>
#include <signal.h>
#include <stdlib.h>
#include <unistd.h>

/* No frame is longer, so that none steps over the guard. */
#define GUARD (256 * 1024)

static size_t element_stack = SOOTLARK_ELEMENT_STACK, other_stack = SOOTLARK_STACK, calls;
static const char *running;
static uint8_t signal_stack[64 * 1024];

/* A signal's own stack belongs to one thread, so the thread itself says that it has one. */
static void *on_thread(void *call) {
    stack_t own = {.ss_sp = signal_stack, .ss_size = sizeof signal_stack};
    sigaltstack(&own, NULL);
    (*(void (**)(void))call)();
    return NULL;
}

static void fault(int number) {
    static const char what[] = ": more stack than there is\n";
    (void)number;
    if (write(STDERR_FILENO, running, strlen(running)) < 0 || write(STDERR_FILENO, what, sizeof what - 1) < 0)
        _exit(2);
    _exit(1);
}

static void must(bool done, const char *what) {
    if (!done) {
        fprintf(stderr, "threads: %s: %s\n", running, what);
        exit(1);
    }
}

static void make_call(const char *name, void (*call)(void), uint64_t expected, bool steps) {
    pthread_attr_t attributes;
    pthread_t thread;
    running = name;
    must(pthread_attr_init(&attributes) == 0, "no attributes");
    must(pthread_attr_setguardsize(&attributes, GUARD) == 0, "no guard");
    must(pthread_attr_setstacksize(&attributes, steps ? element_stack : other_stack) == 0, "no thread may have so little stack");
    answer = expected + 1;
    must(pthread_create(&thread, &attributes, on_thread, &call) == 0, "no thread");
    must(pthread_join(thread, NULL) == 0, "the thread did not end");
    pthread_attr_destroy(&attributes);
    must(answer == expected, "another answer");
    calls++;
}

int main(int words, char **word) {
    if (words == 3) {
        element_stack = strtoul(word[1], NULL, 10);
        other_stack = strtoul(word[2], NULL, 10);
    }
    struct sigaction action = {.sa_handler = fault, .sa_flags = SA_ONSTACK};
    sigaction(SIGSEGV, &action, NULL);
    every_call(make_call);
    printf("threads: %zu calls on stacks of %zu and %zu bytes\n", calls, element_stack, other_stack);
    return 0;
}
