/* Hostile calls by seed.

     driver [--calls N] [--seed S] [--exact] [--only INDEX]

   --exact lends blocks of the heap only, for valgrind. --only repeats one call. Ends with status 0 where no call has a
   fault and, from 100,000 calls on, every outcome that can come has come. */
#define _DEFAULT_SOURCE
#include "calls.h"
#include "checked.h"
#include "lend.h"

#include <signal.h>
#include <stdarg.h>
#include <stdio.h>
#include <stdlib.h>
#include <string.h>
#include <time.h>
#include <unistd.h>

static unsigned long first_calls[FUNCTIONS][NUMBERS], checking_calls[FUNCTIONS][NUMBERS];
static unsigned long faults, now_at;
static unsigned long long seed = 1;

void saw(enum function f, uint32_t number, uint32_t beside, int first)
{
    (void)beside;
    if (number < NUMBERS)
        (first ? first_calls : checking_calls)[f][number]++;
}

void fault(const char *format, ...)
{
    va_list args;
    va_start(args, format);
    printf("FAULT in call %lu: ", now_at);
    vprintf(format, args);
    printf("\n    to repeat: --seed %llu --only %lu\n", seed, now_at);
    va_end(args);
    if (++faults == 20) {
        printf("20 faults: stopped\n");
        exit(1);
    }
}

static void touched_outside(int signal)
{
    char text[160];
    int n = snprintf(text, sizeof text,
                     "FAULT in call %lu: signal %d: memory outside a buffer was touched\n    to repeat: --seed %llu --only %lu\n",
                     now_at, signal, seed, now_at);
    if (write(1, text, (size_t)n) < 0)
        _exit(2);
    _exit(1);
}

static void call_at(unsigned long index)
{
    struct source mix = of_seed(seed ^ (unsigned long long)index << 20);
    struct source s = of_seed(next_number(&mix));
    now_at = index;
    one_call(&s);
}

static unsigned long total(unsigned long table[FUNCTIONS][NUMBERS])
{
    unsigned long sum = 0;
    for (int f = 0; f < FUNCTIONS; f++)
        for (int n = 0; n < NUMBERS; n++)
            sum += table[f][n];
    return sum;
}

/* A row for each number that can come; says how many never came. */
static int report(void)
{
    static const char *const columns[FUNCTIONS] = {
        [ENCODE] = "encode_frame",
        [WRITE] = "write_record",
        [READ] = "read_frame",
        [CHECKSUM] = "checksum",
        [HEADER] = "write_header",
        [LIST_WRITE] = "list_write",
        [LIST_READ] = "list_read",
        [LIST_LOOKUP] = "list_lookup",
        [LIST_SUMMARY] = "list_summary",
        [WAV] = "read_wav",
        [STEREO] = "encode_stereo_frame",
        [LINE] = "encode_line",
        [STEREO_LINE] = "encode_stereo_line",
        [HEADER_BACK] = "read_header",
    };
    int missing = 0;
    uint32_t some = 0;
    printf("%-8s", "number");
    for (int f = 0; f < FUNCTIONS; f++) {
        printf(" %19s", columns[f]);
        some |= can_give[f];
    }
    printf("\n");
    for (int n = 0; n < NUMBERS; n++) {
        if ((some >> n & 1) == 0)
            continue; /* no call gives it */
        printf("%-8d", n);
        for (int f = 0; f < FUNCTIONS; f++) {
            if (can_give[f] >> n & 1)
                printf(" %19lu", first_calls[f][n]);
            else
                printf(" %19s", "-");
            missing += (can_give[f] >> n & 1) && first_calls[f][n] == 0;
        }
        printf("\n");
    }
    return missing;
}

static int usage(void)
{
    fprintf(stderr, "usage: driver [--calls N] [--seed S] [--exact] [--only INDEX]\n");
    return 2;
}

/* Whether the text is a number, with its value. */
static int number_in(const char *text, unsigned long *value)
{
    char *end = NULL;
    if (text == NULL || *text < '0' || *text > '9')
        return 0;
    *value = strtoul(text, &end, 10);
    return *end == 0;
}

int main(int argc, char **argv)
{
    unsigned long calls = 100000, only = 0, wanted_seed = 1;
    int just_one = 0;
    for (int i = 1; i < argc; i++) {
        unsigned long *value = strcmp(argv[i], "--calls") == 0  ? &calls
                               : strcmp(argv[i], "--seed") == 0 ? &wanted_seed
                               : strcmp(argv[i], "--only") == 0 ? &only
                                                                : NULL;
        if (strcmp(argv[i], "--exact") == 0)
            only_exact = 1;
        else if (value == NULL || !number_in(argv[i + 1], value))
            return usage();
        else
            i++;
        just_one = just_one || value == &only;
    }
    seed = wanted_seed;
    setvbuf(stdout, NULL, _IOLBF, 0); /* a fault may end the program */
    signal(SIGSEGV, touched_outside);
    signal(SIGBUS, touched_outside);
    signal(SIGABRT, touched_outside); /* the heap found its own marks overwritten */
    time_t start = time(NULL);
    for (unsigned long i = just_one ? only : 0; i < (just_one ? only + 1 : calls); i++)
        call_at(i);
    int missing = report();
    printf("%lu hostile calls and %lu calls that check them, seed %llu, %ld s: %lu faults", total(first_calls),
           total(checking_calls), seed, (long)(time(NULL) - start), faults);
    if (calls >= 100000 && !just_one)
        printf(", %d outcomes that never came", missing);
    printf("\n");
    return faults > 0 || (calls >= 100000 && !just_one && missing > 0);
}
