/* Folds sums in floating-point environments other than the one a program starts with, without and with the guard of fuchsiarasp.h. */
#include <fenv.h>
#include <inttypes.h>
#include <stdio.h>
#include <stdlib.h>
#include <xmmintrin.h>

#include "chunk.h"
#include "fuchsiarasp.h"

#define LEN(a) (sizeof(a) / sizeof((a)[0]))

/* The bits of MXCSR that flush results to zero and take denormals for zeros. */
#define FLUSH_TO_ZERO 0x8000u
#define DENORMALS_ARE_ZEROS 0x0040u

static uint8_t bytes[64], kinds[4], pool[4];
static uint32_t code[32], lines[32], scratch[4];
static uint64_t values[4], counts[FUCHSIARASP_LEND_COUNTS];

static void must(bool so, const char *what)
{
    if (!so) {
        fprintf(stderr, "%s\n", what);
        exit(1);
    }
}

static struct chunk sum(double a, double b)
{
    struct chunk c;
    chunk_begin(&c, bytes, sizeof bytes, NULL, 0, false, 1);
    chunk_binary(&c, 0, BINARY_ADD);
    chunk_number(&c, 0, a);
    chunk_number(&c, 0, b);
    must(c.good, "the chunk doesn't fit");
    return c;
}

/* The bits of the one constant that the sum becomes, in whatever environment this is called. */
static uint64_t folded(const struct chunk *c)
{
    uint32_t refusal = fuchsiarasp_lower(bytes, c->length, code, LEN(code), lines, LEN(lines), kinds, LEN(kinds), values, LEN(values), pool, LEN(pool), scratch, LEN(scratch), counts, LEN(counts));
    must(refusal == 0 && counts[FUCHSIARASP_COUNT_CONSTANTS] == 1 && kinds[0] == FUCHSIARASP_CONSTANT_NUMBER, "the sum isn't folded");
    return values[0];
}

static uint64_t folded_guarded(const struct chunk *c)
{
    fenv_t env;
    must(fuchsiarasp_fpenv_save(&env) == 0, "the environment can't be saved");
    uint64_t bits = folded(c);
    must(fuchsiarasp_fpenv_restore(&env) == 0, "the environment can't be restored");
    return bits;
}

static void print(const char *what, uint64_t without, uint64_t with, const char *mode, bool restored)
{
    printf("%s\nwithout the guard %016" PRIx64 "\nwith the guard    %016" PRIx64 "\nthe caller's %s is restored: %s\n", what, without, with, mode, restored ? "yes" : "no");
}

int main(void)
{
    struct chunk c = sum(0.1, 0.2);
    must(fesetround(FE_DOWNWARD) == 0, "no rounding downward");
    uint64_t without = folded(&c), with = folded_guarded(&c);
    bool restored = fegetround() == FE_DOWNWARD;
    must(fesetenv(FE_DFL_ENV) == 0, "no default environment");
    print("0.1 + 0.2, rounding downward", without, with, "rounding", restored);

    c = sum(0x1p-1074, 0x1p-1074);
    _mm_setcsr(_mm_getcsr() | FLUSH_TO_ZERO | DENORMALS_ARE_ZEROS);
    without = folded(&c);
    unsigned before = _mm_getcsr(); /* here, for the fold may have raised flags */
    with = folded_guarded(&c);
    restored = _mm_getcsr() == before;
    must(fesetenv(FE_DFL_ENV) == 0, "no default environment");
    print("5e-324 + 5e-324, results flushed to zero and denormals taken for zeros", without, with, "MXCSR", restored);
    return 0;
}
