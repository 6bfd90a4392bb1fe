/* Lowers the formula 1 + x and prints its words and constants; then the same without room for its words, and a chunk without the form. */
#include <inttypes.h>
#include <stdio.h>

#include "fuchsiarasp.h"

#define LEN(a) (sizeof(a) / sizeof((a)[0]))

static uint32_t code[64], lines[64], scratch[16];
static uint8_t kinds[8], pool[64];
static uint64_t values[8], counts[4];

/* Lends all buffers, but of the code only so many words, and prints what comes back. */
static void lower(const char *what, const uint8_t *chunk, size_t length, size_t words)
{
    uint32_t refusal = fuchsiarasp_lower(chunk, length, code, words, lines, LEN(lines), kinds, LEN(kinds), values, LEN(values), pool, LEN(pool), scratch, LEN(scratch), counts, LEN(counts));
    printf("%s\n", what);
    if (refusal != 0) {
        printf("refused %" PRIu32 "\n", refusal);
        return;
    }
    printf("words %" PRIu64 " constants %" PRIu64 " text %" PRIu64 " frame %" PRIu64 "\n", counts[FUCHSIARASP_COUNT_WORDS], counts[FUCHSIARASP_COUNT_CONSTANTS], counts[FUCHSIARASP_COUNT_TEXT], counts[FUCHSIARASP_COUNT_FRAME]);
    for (size_t i = 0; i < counts[FUCHSIARASP_COUNT_WORDS]; i++)
        printf("%zu %" PRIu32 " %08" PRIx32 "\n", i, lines[i], code[i]);
    for (size_t i = 0; i < counts[FUCHSIARASP_COUNT_CONSTANTS]; i++) {
        printf("c%zu %u %016" PRIx64, i, (unsigned)kinds[i], values[i]);
        if (kinds[i] == 4)
            printf(" %.*s", (int)(values[i] & 0xffff), (const char *)pool + (values[i] >> 16));
        printf("\n");
    }
}

int main(void)
{
    static const uint8_t sum[] = {
        0x00, 0x01,             /* no locals, no varargs; one formula */
        0x07, 0x08, 0x00,       /* binary, + */
        0x03, 0x02, 0x00, 0x00, 0x00, 0x00, 0x00, 0x00, 0xf0, 0x3f, /* the number 1 */
        0x06, 0x04, 0x01, 0x00, 0x78, /* the name x */
    };
    static const uint8_t unknown[] = {0x00, 0x01, 0xff, 0x00}; /* a formula of kind 255 */

    lower("1 + x", sum, sizeof sum, LEN(code));
    lower("1 + x with room for two words", sum, sizeof sum, 2);
    lower("an unknown kind", unknown, sizeof unknown, LEN(code));
    return 0;
}
