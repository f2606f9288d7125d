/*
 * A test of fixed cases and then of random ones, in rooms between guard pages: for those of drive tables and of sheets.
 * Whoever includes it has defined TEST, the test's name, and CASE, the word for one of its cases. A failure names the
 * seed and the number of the case, to be run again: TEST [CASES [SEED]].
 */
#ifndef CASES_H
#define CASES_H

#include "guard.h"

#include "draw.h"

/* So many cases reach all that is counted; fewer need not. */
static const uint64_t usual = 20000;

static uint64_t seed = 1;
static uint64_t number;
static const char *at_case = "random";

/* ---- Failures ---- */

static void check(int holds, const char *what)
{
    if (holds)
        return;
    printf(TEST ": %s: %s (seed %llu, " CASE " %llu)\n", at_case, what, (unsigned long long)seed,
           (unsigned long long)number);
    exit(EXIT_FAILURE);
}

/* A touch of a guard page or of what is not to be written, or a call that does not return. */
static void on_signal(int signal)
{
    char line[200];
    int n = snprintf(line, sizeof line, TEST ": %s: %s (seed %llu, " CASE " %llu)\n", at_case,
                     signal == SIGALRM ? "a call has not returned" : "a call touched what is not its own",
                     (unsigned long long)seed, (unsigned long long)number);
    if (write(STDOUT_FILENO, line, (size_t)n) < 0)
        _exit(2);
    _exit(EXIT_FAILURE);
}

/* ---- The run ---- */

/* What the cases reach, each by its name: how often. */
struct reaches {
    const char *const *names;
    uint64_t *counts;
    size_t length;
};

/* The fixed cases, then the random ones, which must reach all that is counted. */
static int run_cases(int argc, char **argv, void (*run_fixed)(void), void (*run_random)(void), struct reaches reached)
{
    uint64_t cases = argc > 1 ? strtoull(argv[1], NULL, 10) : usual;
    size_t i;
    seed = argc > 2 ? strtoull(argv[2], NULL, 10) : 1;
    catch_signals(on_signal);
    random_state = seed;
    alarm(30);
    run_fixed();
    memset(reached.counts, 0, reached.length * sizeof *reached.counts);
    for (number = 0; number < cases; number++)
        run_random();
    at_case = "the run";
    for (i = 0; i < reached.length; i++) {
        printf("  %-34s %8llu\n", reached.names[i], (unsigned long long)reached.counts[i]);
        check(reached.counts[i] > 0 || cases < usual, "something was never reached");
    }
    printf("%llu random " CASE "s, after the fixed ones; no difference\n", (unsigned long long)cases);
    return EXIT_SUCCESS;
}

#endif
