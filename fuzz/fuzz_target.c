/* The same calls and checks over the bytes of libFuzzer. The library is linked as it is, so outcomes stand in for its
   coverage: a call that ends in a new way, or refuses at a new place, is kept. */
#include "calls.h"
#include "lend.h"

#include <stdarg.h>
#include <stdio.h>
#include <stdlib.h>

__attribute__((section("__libfuzzer_extra_counters"))) static uint8_t outcomes[FUNCTIONS][NUMBERS][64];

static unsigned log_of(uint32_t v)
{
    unsigned n = 0;
    for (; v > 0; v >>= 1)
        n++;
    return n;
}

void saw(enum function f, uint32_t number, uint32_t beside, int first)
{
    if (number < NUMBERS)
        outcomes[f][number][(first ? 0 : 32) + log_of(beside) % 32] = 1;
}

void fault(const char *format, ...)
{
    va_list args;
    va_start(args, format);
    fprintf(stderr, "FAULT: ");
    vfprintf(stderr, format, args);
    fprintf(stderr, "\n");
    va_end(args);
    abort();
}

int LLVMFuzzerTestOneInput(const uint8_t *bytes, size_t count);

int LLVMFuzzerTestOneInput(const uint8_t *bytes, size_t count)
{
    struct source s = of_bytes(bytes, count);
    one_call(&s);
    return 0;
}
