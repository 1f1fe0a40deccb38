/* The stack that calls of the library use, measured: each call runs on a stack of its own that was filled with a mark before, and
 * what no longer holds the mark afterwards was used. Run by ./sootlark footprint. */
#include "every_call.h"
#include <stdlib.h>
#include <ucontext.h>

#define STACK_LENGTH (1024 * 1024)
#define MARK 0xA5

static uint8_t stack[STACK_LENGTH] __attribute__((aligned(64)));
static ucontext_t outside, inside;

/* The most that each function used, in the order of its first call. */
static struct {
    char name[96];
    size_t most;
} rows[64];
static size_t row_count, without;

static void nothing(void) {}

/* How many bytes of its own stack a call uses. */
static size_t used_by(void (*call)(void)) {
    memset(stack, MARK, sizeof stack);
    getcontext(&inside);
    inside.uc_stack.ss_sp = stack;
    inside.uc_stack.ss_size = sizeof stack;
    inside.uc_link = &outside;
    makecontext(&inside, call, 0);
    swapcontext(&outside, &inside);
    size_t free = 0;
    while (free < sizeof stack && stack[free] == MARK)
        free++;
    return sizeof stack - free;
}

/* Measures a call; it must be answered with that number, or the measurement is of something else. */
static void measure(const char *name, void (*call)(void), uint64_t expected, bool steps) {
    (void)steps;
    size_t used = used_by(call), row = 0;
    if (answer != expected) {
        fprintf(stderr, "footprint: %s was answered %llu\n", name, (unsigned long long)answer);
        exit(1);
    }
    used = used > without ? used - without : 0;
    while (row < row_count && strcmp(rows[row].name, name) != 0)
        row++;
    if (row == row_count) {
        if (row_count == sizeof rows / sizeof *rows) {
            fprintf(stderr, "footprint: there are more names than rows\n");
            exit(1);
        }
        snprintf(rows[row_count++].name, sizeof rows->name, "%s", name);
    }
    if (rows[row].most < used)
        rows[row].most = used;
}

int main(void) {
    without = used_by(nothing);
    every_call(measure);
    printf("stack in bytes, the caller's own frame included, the most of each call:\n");
    for (size_t row = 0; row < row_count; row++)
        printf("  %-66s %8zu\n", rows[row].name, rows[row].most);
    return 0;
}
