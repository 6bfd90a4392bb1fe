/*
 * Pattern formulas (Lua 5.1 expressions) to register code.
 *
 * The archive libcontroller.a (made by examples/run.sh) defines fuchsiarasp_lower and needs no more than memset and memcpy beside it.
 * It is for x86-64 Linux. It allocates nothing, keeps nothing between calls and reads and writes only what it is lent and its stack, so
 * calls from several threads with buffers of their own don't meet. A call takes up to about 520 kB of stack (measured: calls nested
 * as arguments to nesting 200; other chunks took less): have 1 MB. Its time grows with nodes times constants: usual chunks take some 50 to 125
 * nanoseconds a node, one of 919,025 bytes with 135,000 different texts took 10 seconds. Lending fewer constants bounds it: one with 144,000
 * different texts took 11 seconds with room for them all; with 2,048 kinds and values it is refused with 11 after 4 milliseconds.
 */
#ifndef FUCHSIARASP_H
#define FUCHSIARASP_H

#include <fenv.h>
#include <stddef.h>
#include <stdint.h>

#ifdef __cplusplus
extern "C" {
#endif

/*
 * The bytes of a chunk. Integers are little-endian. Behind a map byte stand only the fields whose bit stands in it, in bit order.
 *
 *   header   a map byte. Bit 0: a byte that counts the local names, and the names, each a u16 length and its bytes. Bit 1, which has no field:
 *            the chunk has varargs. Then the number of formulas, a byte, and the formulas, each a node
 *   node     a kind byte, a map byte, the fields, and then its sub-expressions in reading order. Bit 0: the line, a u32; without it the line is that
 *            of the node before, 1 before the first. Bit 1: a number, the 8 bytes of a double. Bit 2: a text, a u16 length and its bytes. Bit 3: an
 *            operator, a byte. Bit 4: how many arguments, a byte. Bit 0 is free; bits 1 to 4 stand exactly where the kind has them
 *
 *   kind                                bits   sub-expressions
 *   0 nil, 1 true, 2 false, 5 vararg           none
 *   3 number                            1      none
 *   4 string, 6 name                    2      none
 *   7 binary                            3      left, right; + - * / % ^ .. < <= > >= == ~= and or are 0 to 14
 *   8 unary                             3      one; minus, not, # are 0 to 2
 *   9 index                                    object, key
 *   10 field                            2      object
 *   11 method call                      2, 4   object, arguments
 *   12 call                             4      function, arguments
 *   13 parentheses                             one
 */

/* The largest sizes, with the refusal that is given above them. */
#define FUCHSIARASP_MAX_CHUNK 1048576    /* bytes; refusal 1 */
#define FUCHSIARASP_MAX_NESTING 200      /* a formula's root is at nesting 1; refusal 5 */
#define FUCHSIARASP_MAX_LOCALS 200       /* refusal 6 */
#define FUCHSIARASP_MAX_FORMULAS 255     /* what a byte counts; each takes a register, as each local does, so at most 250 of both together are accepted */
#define FUCHSIARASP_MAX_REGISTERS 250    /* refusal 10 */
#define FUCHSIARASP_MAX_CONSTANTS 262144 /* refusal 11, though no chunk is long enough for so many */
#define FUCHSIARASP_MAX_WORDS 131071     /* refusal 13 */

/*
 * How much to lend, by the number n of nodes or by the chunk's length. A macro evaluates its argument up to twice, and is a constant expression where
 * that is one.
 *
 * Proved (docs/PROOFS.md, "How much to lend"): a chunk of n nodes never needs more than 8n + 1 of code and lines, n of kinds and values, chunk_len of
 * pool and n of scratch, and n is at most chunk_len / 2, since a node has two bytes at least. With that much, and n up to 16,383, a chunk that has the
 * form is lowered or refused with 10. No more than 131,071 of code and lines, 262,144 of kinds and values and 4 of counts is ever used, and a longer
 * chunk than 1,048,576 bytes is refused whatever is lent: the macros give no more than that.
 */
#define FUCHSIARASP_NODES(chunk_len) (FUCHSIARASP_LEND_POOL(chunk_len) / 2) /* the most nodes of a chunk */
#define FUCHSIARASP_LEND_WORDS(n) ((size_t)(n) < 16384 ? (size_t)(n) * 8 + 1 : (size_t)FUCHSIARASP_MAX_WORDS) /* code, lines */
#define FUCHSIARASP_LEND_CONSTANTS(n) ((size_t)(n) < FUCHSIARASP_MAX_CONSTANTS ? (size_t)(n) : (size_t)FUCHSIARASP_MAX_CONSTANTS) /* kinds, values */
#define FUCHSIARASP_LEND_POOL(chunk_len) ((size_t)(chunk_len) < FUCHSIARASP_MAX_CHUNK ? (size_t)(chunk_len) : (size_t)FUCHSIARASP_MAX_CHUNK)
#define FUCHSIARASP_LEND_SCRATCH(n) ((size_t)(n))
#define FUCHSIARASP_LEND_COUNTS 4

/*
 * Why a chunk is refused. 1 to 8 come from its form alone, 9 to 13 from the lowering.
 *
 * Where several are due: 1 comes first. Then those of the form, in the order in which bytes are met: in the header 2 or 3 at the map byte, 2 or 6 at the
 * count of locals, 2 in the names and at the number of formulas; at each node 5 before any of its bytes, 2 or 4 at its kind, 2 or 3 at its map, 2 inside
 * its fields, 4 at its operator, 7 behind a vararg's fields; 8 behind the last formula. Then 9. Then 10 to 13, the first that is met in emission order;
 * for a new text 11 before 12.
 */
enum fuchsiarasp_refusal {
    FUCHSIARASP_TOO_LONG = 1,   /* the chunk is longer than 1,048,576 bytes */
    FUCHSIARASP_MISSING = 2,    /* a byte that the form asks for isn't there */
    FUCHSIARASP_MAP = 3,        /* a bit map has a bit that isn't taken there, or lacks one that is needed */
    FUCHSIARASP_KIND = 4,       /* an unknown kind of node, or an unknown operator */
    FUCHSIARASP_NESTING = 5,    /* a node at nesting 201 */
    FUCHSIARASP_LOCALS = 6,     /* more than 200 locals */
    FUCHSIARASP_VARARGS = 7,    /* a vararg in a chunk without varargs */
    FUCHSIARASP_TRAILING = 8,   /* bytes after the last formula */
    FUCHSIARASP_SCRATCH = 9,    /* the scratch is shorter than the number of nodes */
    FUCHSIARASP_REGISTERS = 10, /* more than 250 registers */
    FUCHSIARASP_CONSTANTS = 11, /* a new constant beyond the shorter of kinds and values, or beyond 262,144 entries */
    FUCHSIARASP_POOL = 12,      /* the text of a new constant doesn't fit the pool */
    FUCHSIARASP_WORDS = 13      /* a word beyond the shorter of code and lines, or beyond 131,071 words */
};

/* A short name for what fuchsiarasp_lower returns. */
static inline const char *fuchsiarasp_refusal_name(uint32_t refusal)
{
    static const char *const names[] = {
        "accepted", "chunk too long", "byte missing", "wrong bit map", "unknown kind or operator", "nested too deep", "too many locals",
        "vararg without varargs", "bytes after the end", "scratch too short", "too many registers", "too many constants", "pool too short", "too many words",
    };
    return refusal < sizeof names / sizeof names[0] ? names[refusal] : "unknown";
}

/* What stands where in counts. */
enum fuchsiarasp_count {
    FUCHSIARASP_COUNT_WORDS = 0,
    FUCHSIARASP_COUNT_CONSTANTS = 1,
    FUCHSIARASP_COUNT_TEXT = 2,
    FUCHSIARASP_COUNT_FRAME = 3
};

/* The kinds of constants. */
enum fuchsiarasp_constant {
    FUCHSIARASP_CONSTANT_NIL = 0,
    FUCHSIARASP_CONSTANT_FALSE = 1,
    FUCHSIARASP_CONSTANT_TRUE = 2,
    FUCHSIARASP_CONSTANT_NUMBER = 3,
    FUCHSIARASP_CONSTANT_TEXT = 4
};

/*
 * The opcodes, with Lua 5.1's names and numbers. The lowering emits all but these twelve: GETUPVAL, SETGLOBAL, SETUPVAL, SETTABLE, NEWTABLE, TAILCALL,
 * FORLOOP, FORPREP, TFORLOOP, SETLIST, CLOSE and CLOSURE.
 */
enum fuchsiarasp_opcode {
    FUCHSIARASP_OP_MOVE = 0,
    FUCHSIARASP_OP_LOADK = 1,
    FUCHSIARASP_OP_LOADBOOL = 2,
    FUCHSIARASP_OP_LOADNIL = 3,
    FUCHSIARASP_OP_GETUPVAL = 4,
    FUCHSIARASP_OP_GETGLOBAL = 5,
    FUCHSIARASP_OP_GETTABLE = 6,
    FUCHSIARASP_OP_SETGLOBAL = 7,
    FUCHSIARASP_OP_SETUPVAL = 8,
    FUCHSIARASP_OP_SETTABLE = 9,
    FUCHSIARASP_OP_NEWTABLE = 10,
    FUCHSIARASP_OP_SELF = 11,
    FUCHSIARASP_OP_ADD = 12,
    FUCHSIARASP_OP_SUB = 13,
    FUCHSIARASP_OP_MUL = 14,
    FUCHSIARASP_OP_DIV = 15,
    FUCHSIARASP_OP_MOD = 16,
    FUCHSIARASP_OP_POW = 17,
    FUCHSIARASP_OP_UNM = 18,
    FUCHSIARASP_OP_NOT = 19,
    FUCHSIARASP_OP_LEN = 20,
    FUCHSIARASP_OP_CONCAT = 21,
    FUCHSIARASP_OP_JMP = 22,
    FUCHSIARASP_OP_EQ = 23,
    FUCHSIARASP_OP_LT = 24,
    FUCHSIARASP_OP_LE = 25,
    FUCHSIARASP_OP_TEST = 26,
    FUCHSIARASP_OP_TESTSET = 27,
    FUCHSIARASP_OP_CALL = 28,
    FUCHSIARASP_OP_TAILCALL = 29,
    FUCHSIARASP_OP_RETURN = 30,
    FUCHSIARASP_OP_FORLOOP = 31,
    FUCHSIARASP_OP_FORPREP = 32,
    FUCHSIARASP_OP_TFORLOOP = 33,
    FUCHSIARASP_OP_SETLIST = 34,
    FUCHSIARASP_OP_CLOSE = 35,
    FUCHSIARASP_OP_CLOSURE = 36,
    FUCHSIARASP_OP_VARARG = 37
};

/* The fields of a word; an RK operand is a register, or a constant where IS_K says so. */
#define FUCHSIARASP_OPCODE(w) ((uint32_t)(w) & 63)
#define FUCHSIARASP_A(w) (((uint32_t)(w) >> 6) & 255)
#define FUCHSIARASP_B(w) ((uint32_t)(w) >> 23)
#define FUCHSIARASP_C(w) (((uint32_t)(w) >> 14) & 511)
#define FUCHSIARASP_BX(w) ((uint32_t)(w) >> 14)
#define FUCHSIARASP_SBX(w) ((int32_t)FUCHSIARASP_BX(w) - 131071)
#define FUCHSIARASP_IS_K(rk) ((uint32_t)(rk) >= 256)
#define FUCHSIARASP_K(rk) ((uint32_t)(rk) - 256)

/*
 * The floating-point environment. Arithmetic on numerals (+ - * / % and unary minus) is folded in the caller's environment, and the proofs are about one
 * that rounds to nearest, neither flushes results to zero nor takes denormals for zeros, and masks exceptions. A C program starts so, unless it is linked
 * with -ffast-math or -Ofast (with gcc 12 and clang 14 it then starts with both flags for denormals set). Elsewhere folded constants can differ, and so
 * can what is folded: where denormals are zeros, 1 / 5e-324 is a division by zero, which is left to the run. An exception that folding raises and that isn't
 * masked is a SIGFPE, which ends the process. The lowering changes no mode itself, but leaves status flags raised, such as inexact.
 *
 * Where the environment may be another, call fuchsiarasp_fpenv_save before fuchsiarasp_lower and fuchsiarasp_fpenv_restore after it, in the same thread:
 * the first stores it and sets FE_DFL_ENV, the second puts all of it back, flags included. Both return 0, or nonzero if that failed. They need -lm.
 */
static inline int fuchsiarasp_fpenv_save(fenv_t *env)
{
    /* not feholdexcept and fesetround: glibc's leave both flags for denormals as they are, its FE_DFL_ENV clears them */
    return fegetenv(env) != 0 || fesetenv(FE_DFL_ENV) != 0;
}

static inline int fuchsiarasp_fpenv_restore(const fenv_t *env)
{
    return fesetenv(env) != 0;
}

/*
 * Lowers a chunk. Returns 0, or the number of the refusal.
 *
 * After 0 each buffer holds its result and then zeros to its end; after a refusal every buffer holds only zeros.
 *
 *   chunk    the chunk, which is only read
 *   code     words of 32 bits, the last a Return: opcode (Lua 5.1's numbers) bits 0-5, A bits 6-13, C bits 14-22, B bits 23-31; Bx is bits 14-31,
 *            sBx is Bx minus 131,071. An operand of arithmetic, comparisons and keys (RK) is a register below 256, else the constant RK minus 256
 *   lines    the line of each word
 *   kinds    the kind of each constant: 0 nil, 1 false, 2 true, 3 number, 4 text
 *   values   the value of each constant: 0 for nil and truth values, the bits of the double, or a text's start in the pool * 65,536 + its length
 *   pool     the bytes of the texts
 *   scratch  the place of each node's kind byte in the chunk, in reading order
 *   counts   words, constants, bytes of text, and registers (the frame), in this order: as many of the four as fit
 *
 * Before the words are run, the locals stand in registers 0 and up, in the order of their names, and every other register below the frame holds nil:
 * a nil at word 0 is not emitted. For such runs it is proved that they return what the formulas mean.
 *
 * Each buffer is passed as a pointer and the number of its elements (not bytes); no length has to agree with another.
 *
 * What the caller owes:
 *   - each pointer is valid for its number of elements and aligned for their type; for 0 elements it may point anywhere, but is aligned and isn't null
 *   - no two buffers overlap, and the chunk overlaps none
 *   - the floating-point environment is as above
 */
uint32_t fuchsiarasp_lower(
    const uint8_t *chunk, size_t chunk_len,
    uint32_t *code, size_t code_len,
    uint32_t *lines, size_t lines_len,
    uint8_t *kinds, size_t kinds_len,
    uint64_t *values, size_t values_len,
    uint8_t *pool, size_t pool_len,
    uint32_t *scratch, size_t scratch_len,
    uint64_t *counts, size_t counts_len);

#ifdef __cplusplus
}
#endif

#endif
