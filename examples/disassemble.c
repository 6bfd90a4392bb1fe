/* Lowers chunks made with chunk.h and prints their words as `luac -l` of Lua 5.1 prints its own, and their constants; or the refusal. */
#include <inttypes.h>
#include <stdio.h>

#include "chunk.h"
#include "fuchsiarasp.h"

#define LEN(a) (sizeof(a) / sizeof((a)[0]))

/* Room for a chunk; so much of the rest is always enough for it. */
#define ROOM 256
#define NODES FUCHSIARASP_NODES(ROOM)

static uint8_t bytes[ROOM], kinds[FUCHSIARASP_LEND_CONSTANTS(NODES)], pool[FUCHSIARASP_LEND_POOL(ROOM)];
static uint32_t code[FUCHSIARASP_LEND_WORDS(NODES)], lines[FUCHSIARASP_LEND_WORDS(NODES)], scratch[FUCHSIARASP_LEND_SCRATCH(NODES)];
static uint64_t values[FUCHSIARASP_LEND_CONSTANTS(NODES)], counts[FUCHSIARASP_LEND_COUNTS];

/* Each opcode's name and the operands that luac shows: A, B and C; K for Bx as a constant, X for Bx as a number, S for sBx. No word has one above 37. */
static const struct {
    const char *name, *operands;
} opcodes[] = {
    [FUCHSIARASP_OP_MOVE] = {"MOVE", "AB"},
    [FUCHSIARASP_OP_LOADK] = {"LOADK", "AK"},
    [FUCHSIARASP_OP_LOADBOOL] = {"LOADBOOL", "ABC"},
    [FUCHSIARASP_OP_LOADNIL] = {"LOADNIL", "AB"},
    [FUCHSIARASP_OP_GETUPVAL] = {"GETUPVAL", "AB"},
    [FUCHSIARASP_OP_GETGLOBAL] = {"GETGLOBAL", "AK"},
    [FUCHSIARASP_OP_GETTABLE] = {"GETTABLE", "ABC"},
    [FUCHSIARASP_OP_SETGLOBAL] = {"SETGLOBAL", "AK"},
    [FUCHSIARASP_OP_SETUPVAL] = {"SETUPVAL", "AB"},
    [FUCHSIARASP_OP_SETTABLE] = {"SETTABLE", "ABC"},
    [FUCHSIARASP_OP_NEWTABLE] = {"NEWTABLE", "ABC"},
    [FUCHSIARASP_OP_SELF] = {"SELF", "ABC"},
    [FUCHSIARASP_OP_ADD] = {"ADD", "ABC"},
    [FUCHSIARASP_OP_SUB] = {"SUB", "ABC"},
    [FUCHSIARASP_OP_MUL] = {"MUL", "ABC"},
    [FUCHSIARASP_OP_DIV] = {"DIV", "ABC"},
    [FUCHSIARASP_OP_MOD] = {"MOD", "ABC"},
    [FUCHSIARASP_OP_POW] = {"POW", "ABC"},
    [FUCHSIARASP_OP_UNM] = {"UNM", "AB"},
    [FUCHSIARASP_OP_NOT] = {"NOT", "AB"},
    [FUCHSIARASP_OP_LEN] = {"LEN", "AB"},
    [FUCHSIARASP_OP_CONCAT] = {"CONCAT", "ABC"},
    [FUCHSIARASP_OP_JMP] = {"JMP", "S"},
    [FUCHSIARASP_OP_EQ] = {"EQ", "ABC"},
    [FUCHSIARASP_OP_LT] = {"LT", "ABC"},
    [FUCHSIARASP_OP_LE] = {"LE", "ABC"},
    [FUCHSIARASP_OP_TEST] = {"TEST", "ABC"},
    [FUCHSIARASP_OP_TESTSET] = {"TESTSET", "ABC"},
    [FUCHSIARASP_OP_CALL] = {"CALL", "ABC"},
    [FUCHSIARASP_OP_TAILCALL] = {"TAILCALL", "ABC"},
    [FUCHSIARASP_OP_RETURN] = {"RETURN", "AB"},
    [FUCHSIARASP_OP_FORLOOP] = {"FORLOOP", "AS"},
    [FUCHSIARASP_OP_FORPREP] = {"FORPREP", "AS"},
    [FUCHSIARASP_OP_TFORLOOP] = {"TFORLOOP", "AC"},
    [FUCHSIARASP_OP_SETLIST] = {"SETLIST", "ABC"},
    [FUCHSIARASP_OP_CLOSE] = {"CLOSE", "A"},
    [FUCHSIARASP_OP_CLOSURE] = {"CLOSURE", "AX"},
    [FUCHSIARASP_OP_VARARG] = {"VARARG", "AB"},
};

/* ---- constants */

static const uint8_t *text_of(size_t k)
{
    return pool + (values[k] >> 16);
}

static size_t length_of(size_t k)
{
    return values[k] & 0xffff;
}

static void print_text(const uint8_t *text, size_t length)
{
    static const char escaped[] = "\"\\\a\b\f\n\r\t\v", letters[] = "\"\\abfnrtv";
    putchar('"');
    for (size_t i = 0; i < length; i++) {
        const char *found = text[i] != 0 ? strchr(escaped, text[i]) : NULL;
        if (found != NULL)
            printf("\\%c", letters[found - escaped]);
        else if (text[i] >= ' ' && text[i] <= '~')
            putchar(text[i]);
        else
            printf("\\%03u", (unsigned)text[i]);
    }
    putchar('"');
}

static void print_constant(size_t k)
{
    double number;
    switch (kinds[k]) {
    case FUCHSIARASP_CONSTANT_NIL:
        printf("nil");
        break;
    case FUCHSIARASP_CONSTANT_FALSE:
        printf("false");
        break;
    case FUCHSIARASP_CONSTANT_TRUE:
        printf("true");
        break;
    case FUCHSIARASP_CONSTANT_NUMBER:
        memcpy(&number, &values[k], sizeof number);
        printf("%.14g", number);
        break;
    case FUCHSIARASP_CONSTANT_TEXT:
        print_text(text_of(k), length_of(k));
        break;
    }
}

/* ---- words */

/* luac numbers constants from -1 down, so that they differ from registers. */
static void print_constant_number(uint32_t k)
{
    printf("%" PRId32, -1 - (int32_t)k);
}

static void print_rk(uint32_t rk)
{
    if (FUCHSIARASP_IS_K(rk))
        print_constant_number(FUCHSIARASP_K(rk));
    else
        printf("%" PRIu32, rk);
}

static void print_operand(uint32_t w, char operand)
{
    switch (operand) {
    case 'A':
        printf("%" PRIu32, FUCHSIARASP_A(w));
        break;
    case 'B':
        print_rk(FUCHSIARASP_B(w));
        break;
    case 'C':
        print_rk(FUCHSIARASP_C(w));
        break;
    case 'K':
        print_constant_number(FUCHSIARASP_BX(w));
        break;
    case 'X':
        printf("%" PRIu32, FUCHSIARASP_BX(w));
        break;
    case 'S':
        printf("%" PRId32, FUCHSIARASP_SBX(w));
        break;
    }
}

/* An operand in a comment: a constant, or a dash for a register. */
static void print_rk_value(uint32_t rk)
{
    if (FUCHSIARASP_IS_K(rk))
        print_constant(FUCHSIARASP_K(rk));
    else
        putchar('-');
}

/* The comments that luac has for what the lowering emits. It has none for MOD. */
static void print_comment(size_t i, uint32_t w)
{
    uint32_t b = FUCHSIARASP_B(w), c = FUCHSIARASP_C(w), bx = FUCHSIARASP_BX(w);
    switch (FUCHSIARASP_OPCODE(w)) {
    case FUCHSIARASP_OP_LOADK:
        printf("\t; ");
        print_constant(bx);
        break;
    case FUCHSIARASP_OP_GETGLOBAL:
        printf("\t; %.*s", (int)length_of(bx), (const char *)text_of(bx));
        break;
    case FUCHSIARASP_OP_GETTABLE:
    case FUCHSIARASP_OP_SELF:
        if (FUCHSIARASP_IS_K(c)) {
            printf("\t; ");
            print_constant(FUCHSIARASP_K(c));
        }
        break;
    case FUCHSIARASP_OP_ADD:
    case FUCHSIARASP_OP_SUB:
    case FUCHSIARASP_OP_MUL:
    case FUCHSIARASP_OP_DIV:
    case FUCHSIARASP_OP_POW:
    case FUCHSIARASP_OP_EQ:
    case FUCHSIARASP_OP_LT:
    case FUCHSIARASP_OP_LE:
        if (FUCHSIARASP_IS_K(b) || FUCHSIARASP_IS_K(c)) {
            printf("\t; ");
            print_rk_value(b);
            putchar(' ');
            print_rk_value(c);
        }
        break;
    case FUCHSIARASP_OP_JMP:
        /* from the word behind the jump, counted from 1 */
        printf("\t; to %" PRId64, (int64_t)i + 2 + FUCHSIARASP_SBX(w));
        break;
    }
}

static void print_word(size_t i)
{
    uint32_t w = code[i], opcode = FUCHSIARASP_OPCODE(w);
    printf("\t%zu\t", i + 1);
    if (lines[i] != 0)
        printf("[%" PRIu32 "]\t", lines[i]);
    else
        printf("[-]\t");
    printf("%-9s\t", opcodes[opcode].name);
    for (const char *operand = opcodes[opcode].operands; *operand != 0; operand++) {
        if (operand != opcodes[opcode].operands)
            putchar(' ');
        print_operand(w, *operand);
    }
    print_comment(i, w);
    putchar('\n');
}

/* ---- chunks */

static void lower(const char *what, const struct chunk *c)
{
    puts(what);
    if (!c->good) {
        puts("the builder lacks room");
        return;
    }
    uint32_t refusal = fuchsiarasp_lower(bytes, c->length, code, LEN(code), lines, LEN(lines), kinds, LEN(kinds), values, LEN(values), pool, LEN(pool), scratch, LEN(scratch), counts, LEN(counts));
    if (refusal != 0) {
        printf("refused %" PRIu32 " (%s)\n", refusal, fuchsiarasp_refusal_name(refusal));
        return;
    }
    printf("words %" PRIu64 " constants %" PRIu64 " text %" PRIu64 " frame %" PRIu64 "\n", counts[FUCHSIARASP_COUNT_WORDS], counts[FUCHSIARASP_COUNT_CONSTANTS], counts[FUCHSIARASP_COUNT_TEXT], counts[FUCHSIARASP_COUNT_FRAME]);
    for (size_t i = 0; i < counts[FUCHSIARASP_COUNT_WORDS]; i++)
        print_word(i);
    printf("constants (%" PRIu64 "):\n", counts[FUCHSIARASP_COUNT_CONSTANTS]);
    for (size_t k = 0; k < counts[FUCHSIARASP_COUNT_CONSTANTS]; k++) {
        printf("\t%zu\t", k + 1);
        print_constant(k);
        putchar('\n');
    }
    putchar('\n');
}

int main(void)
{
    struct chunk c;

    chunk_begin(&c, bytes, ROOM, NULL, 0, false, 1);
    chunk_binary(&c, 0, BINARY_ADD);
    chunk_number(&c, 0, 1);
    chunk_text(&c, 0, NODE_NAME, "x");
    lower("1 + x", &c);

    static const char *const a_t[] = {"a", "t"};
    chunk_begin(&c, bytes, ROOM, a_t, LEN(a_t), true, 1);
    chunk_call(&c, 0, 3);
    chunk_text(&c, 0, NODE_FIELD, "c");
    chunk_text(&c, 0, NODE_FIELD, "b");
    chunk_text(&c, 0, NODE_NAME, "a");
    chunk_number(&c, 0, 1);
    chunk_text(&c, 2, NODE_STRING, "s");
    chunk_plain(&c, 0, NODE_VARARG);
    lower("a.b.c(1, \"s\", ...) with locals a, t and varargs, \"s\" on line 2", &c);

    chunk_begin(&c, bytes, ROOM, NULL, 0, false, 1);
    chunk_binary(&c, 0, BINARY_OR);
    chunk_plain(&c, 0, NODE_PARENTHESES);
    chunk_binary(&c, 0, BINARY_AND);
    chunk_plain(&c, 0, NODE_PARENTHESES);
    chunk_binary(&c, 0, BINARY_OR);
    chunk_number(&c, 0, 1);
    chunk_plain(&c, 0, NODE_FALSE);
    chunk_plain(&c, 0, NODE_TRUE);
    chunk_plain(&c, 0, NODE_FALSE);
    lower("((1 or false) and true) or false", &c);

    chunk_begin(&c, bytes, ROOM, NULL, 0, false, 1);
    chunk_method_call(&c, 0, "m", 1);
    chunk_text(&c, 0, NODE_NAME, "obj");
    chunk_text(&c, 0, NODE_NAME, "x");
    lower("obj:m(x)", &c);

    chunk_begin(&c, bytes, ROOM, NULL, 0, false, 1);
    chunk_unary(&c, 0, UNARY_NOT);
    chunk_plain(&c, 0, NODE_PARENTHESES);
    chunk_binary(&c, 0, BINARY_LT);
    chunk_text(&c, 0, NODE_NAME, "a");
    chunk_text(&c, 0, NODE_NAME, "b");
    lower("not (a < b)", &c);

    static const char *const t_i[] = {"t", "i"};
    chunk_begin(&c, bytes, ROOM, t_i, LEN(t_i), false, 5);
    chunk_plain(&c, 10, NODE_INDEX);
    chunk_text(&c, 0, NODE_NAME, "t");
    chunk_text(&c, 0, NODE_NAME, "i");
    chunk_binary(&c, 11, BINARY_CONCAT);
    chunk_unary(&c, 0, UNARY_LENGTH);
    chunk_text(&c, 0, NODE_NAME, "t");
    chunk_text(&c, 0, NODE_STRING, "\t");
    chunk_binary(&c, 12, BINARY_SUB);
    chunk_binary(&c, 0, BINARY_MUL);
    chunk_number(&c, 0, 2);
    chunk_number(&c, 0, 3);
    chunk_number(&c, 0, 0.1);
    chunk_binary(&c, 13, BINARY_EQ);
    chunk_text(&c, 0, NODE_NAME, "x");
    chunk_plain(&c, 0, NODE_NIL);
    chunk_binary(&c, 14, BINARY_POW);
    chunk_number(&c, 0, 2);
    chunk_number(&c, 0, 0.5);
    lower("t[i], #t .. \"\\t\", 2 * 3 - 0.1, x == nil, 2 ^ 0.5 with locals t, i, on lines 10 to 14", &c);

    /* no such operator */
    chunk_begin(&c, bytes, ROOM, NULL, 0, false, 1);
    chunk_binary(&c, 0, 15);
    chunk_text(&c, 0, NODE_NAME, "x");
    chunk_text(&c, 0, NODE_NAME, "y");
    lower("x and y under a binary operator 15", &c);
    return 0;
}
