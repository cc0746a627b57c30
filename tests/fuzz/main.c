/* A long random run over every call of the library, under the address and the
 * undefined behaviour sanitizers: long [SECONDS [SEED [CASES]]]. It ends with
 * the number of calls, or at the first thing that is found, with status 1. So it
 * does where CASES are asked for and time is up before them. */
#include "fuzz.h"
#include "lend.h"

#include <inttypes.h>
#include <sanitizer/common_interface_defs.h>
#include <stdio.h>
#include <stdlib.h>
#include <time.h>

/* Seconds between two lines of progress. */
#define PROGRESS 10

/* Not a local, since a sanitizer's last word needs it. */
static struct run run;

/* The case can be repeated by its seed and number. */
static void say_case(const struct run *at)
{
    fprintf(stderr, "in case %" PRIu64 " of seed %" PRIu64 "\n", at->number, at->seed);
}

/* What a sanitizer ends the run with. */
static void on_death(void)
{
    say_case(&run);
}

void expect(const struct run *at, bool fact, const char *call, const char *what)
{
    if (fact)
        return;
    fprintf(stderr, "FOUND: rbatl_%s: %s\n", call, what);
    say_case(at);
    exit(1);
}

static void print_counts(void)
{
    uint64_t calls = 0;
    for (unsigned entry = 0; entry < ENTRIES; entry++)
        calls += run.calls[entry];
    printf("%" PRIu64 " cases, %" PRIu64 " calls, nothing found:", run.number, calls);
    for (unsigned entry = 0; entry < ENTRIES; entry++)
        printf(" %s %" PRIu64 " (%" PRIu64 " refused)", entry_name((enum entry)entry),
               run.calls[entry], run.refusals[entry]);
    putchar('\n');
    fflush(stdout);
}

static uint64_t number_of(const char *word)
{
    char *end;
    unsigned long long number = strtoull(word, &end, 10);
    if (*word < '0' || *word > '9' || *end != 0) {
        fprintf(stderr, "usage: long [SECONDS [SEED [CASES]]]\n");
        exit(2);
    }
    return number;
}

int main(int argc, char **argv)
{
    uint64_t seconds = number_of(argc > 1 ? argv[1] : "600");
    uint64_t cases = argc > 3 ? number_of(argv[3]) : UINT64_MAX;
    time_t start = time(NULL), last = start;

    run.seed = number_of(argc > 2 ? argv[2] : "1");
    open_slots();
    __sanitizer_set_death_callback(on_death);
    for (run.number = 0; run.number < cases; run.number++) {
        time_t now = time(NULL);
        if ((uint64_t)(now - start) >= seconds)
            break;
        if (now - last >= PROGRESS) {
            print_counts();
            last = now;
        }
        run.random = random_for(run.seed, run.number);
        try_case(&run);
    }
    print_counts();
    if (argc > 3 && run.number < cases) {
        fprintf(stderr, "long: %" PRIu64 " of %" PRIu64 " cases in %" PRIu64 " seconds\n",
                run.number, cases, seconds);
        return 1;
    }
    return 0;
}
