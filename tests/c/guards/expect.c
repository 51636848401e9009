#include "expect.h"

#include <signal.h>
#include <stdio.h>
#include <stdlib.h>
#include <string.h>
#include <unistd.h>

static const char *calling = "no function";
static size_t calls;

void expect_call(const char *function) {
    calling = function;
    calls++;
}

void expect(bool fact, const char *words) {
    if (!fact) {
        printf("guards: call %zu, of %s: not so: %s\n", calls, calling, words);
        exit(1);
    }
}

size_t expect_calls(void) {
    return calls;
}

/* In a signal nothing but write is safe. */
static void say(const char *words) {
    if (write(STDOUT_FILENO, words, strlen(words)) < 0)
        _exit(1);
}

static void fault(int signal_number) {
    (void)signal_number;
    say("guards: what was not lent was touched by ");
    say(calling);
    say("\n");
    _exit(1);
}

void expect_faults(void) {
    signal(SIGSEGV, fault);
    signal(SIGBUS, fault);
}
