/*
 * A chunk builder, of the kind that each user of fuchsiarasp.h writes first. The nodes are appended in reading order, each before its sub-expressions;
 * that there are as many of these as a node asks for is left to the caller, and to the refusals of fuchsiarasp_lower.
 */
#ifndef CHUNK_H
#define CHUNK_H

#include <stdbool.h>
#include <stddef.h>
#include <stdint.h>
#include <string.h>

enum node_kind {
    NODE_NIL, NODE_TRUE, NODE_FALSE, NODE_NUMBER, NODE_STRING, NODE_VARARG, NODE_NAME, NODE_BINARY, NODE_UNARY, NODE_INDEX, NODE_FIELD, NODE_METHOD_CALL,
    NODE_CALL, NODE_PARENTHESES
};

enum binary_operator {
    BINARY_ADD, BINARY_SUB, BINARY_MUL, BINARY_DIV, BINARY_MOD, BINARY_POW, BINARY_CONCAT, BINARY_LT, BINARY_LE, BINARY_GT, BINARY_GE, BINARY_EQ, BINARY_NE,
    BINARY_AND, BINARY_OR
};

enum unary_operator { UNARY_MINUS, UNARY_NOT, UNARY_LENGTH };

enum header_map { HEADER_LOCALS = 1, HEADER_VARARGS = 2 };

enum node_map { MAP_LINE = 1, MAP_NUMBER = 2, MAP_TEXT = 4, MAP_OPERATOR = 8, MAP_ARGUMENTS = 16 };

/* Where the chunk stands, and how much of it there is. What doesn't fit the room or its field is left out, and the chunk is then no good. */
struct chunk {
    uint8_t *bytes;
    size_t room, length, nodes;
    bool good;
};

static inline void chunk_integer(struct chunk *c, uint64_t value, size_t width)
{
    if (c->room - c->length < width || (width < 8 && value >> (8 * width) != 0)) {
        c->good = false;
        return;
    }
    for (size_t i = 0; i < width; i++)
        c->bytes[c->length++] = (uint8_t)(value >> (8 * i));
}

/* A text up to its first zero byte; in a chunk it may have such bytes too. */
static inline void chunk_bytes(struct chunk *c, const char *text)
{
    size_t length = strlen(text);
    chunk_integer(c, length, 2);
    if (!c->good || c->room - c->length < length) {
        c->good = false;
        return;
    }
    memcpy(c->bytes + c->length, text, length);
    c->length += length;
}

/* The header. As many nodes follow at nesting 1 as there are formulas. */
static inline void chunk_begin(struct chunk *c, uint8_t *bytes, size_t room, const char *const *locals, size_t local_count, bool varargs, size_t formulas)
{
    *c = (struct chunk){.bytes = bytes, .room = room, .good = true};
    chunk_integer(c, (local_count != 0 ? HEADER_LOCALS : 0u) | (varargs ? HEADER_VARARGS : 0u), 1);
    if (local_count != 0)
        chunk_integer(c, local_count, 1);
    for (size_t i = 0; i < local_count; i++)
        chunk_bytes(c, locals[i]);
    chunk_integer(c, formulas, 1);
}

/* Kind, map and line; a line of 0 is left out, and then that of the node before holds. */
static inline void chunk_front(struct chunk *c, uint32_t line, enum node_kind kind, unsigned map)
{
    c->nodes++;
    chunk_integer(c, kind, 1);
    chunk_integer(c, line != 0 ? map | MAP_LINE : map, 1);
    if (line != 0)
        chunk_integer(c, line, 4);
}

/* Nil, true, false, a vararg, an index or parentheses. */
static inline void chunk_plain(struct chunk *c, uint32_t line, enum node_kind kind)
{
    chunk_front(c, line, kind, 0);
}

static inline void chunk_number(struct chunk *c, uint32_t line, double number)
{
    uint64_t bits;
    memcpy(&bits, &number, sizeof bits);
    chunk_front(c, line, NODE_NUMBER, MAP_NUMBER);
    chunk_integer(c, bits, 8);
}

/* A string, a name or a field. */
static inline void chunk_text(struct chunk *c, uint32_t line, enum node_kind kind, const char *text)
{
    chunk_front(c, line, kind, MAP_TEXT);
    chunk_bytes(c, text);
}

static inline void chunk_binary(struct chunk *c, uint32_t line, enum binary_operator op)
{
    chunk_front(c, line, NODE_BINARY, MAP_OPERATOR);
    chunk_integer(c, op, 1);
}

static inline void chunk_unary(struct chunk *c, uint32_t line, enum unary_operator op)
{
    chunk_front(c, line, NODE_UNARY, MAP_OPERATOR);
    chunk_integer(c, op, 1);
}

static inline void chunk_method_call(struct chunk *c, uint32_t line, const char *name, size_t arguments)
{
    chunk_front(c, line, NODE_METHOD_CALL, MAP_TEXT | MAP_ARGUMENTS);
    chunk_bytes(c, name);
    chunk_integer(c, arguments, 1);
}

static inline void chunk_call(struct chunk *c, uint32_t line, size_t arguments)
{
    chunk_front(c, line, NODE_CALL, MAP_ARGUMENTS);
    chunk_integer(c, arguments, 1);
}

#endif
