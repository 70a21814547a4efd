/* What the drivers of judged runs share: buffers with guard bytes on both sides that hold noise at first, and the words of a line. */
#ifndef JUDGED_H
#define JUDGED_H

#define _GNU_SOURCE
#include <stdio.h>
#include <stdlib.h>
#include <string.h>

#include "klumavec.h"

#if defined __has_include
#if __has_include(<valgrind/memcheck.h>)
#include <valgrind/memcheck.h>
#endif
#endif
#ifndef VALGRIND_MAKE_MEM_NOACCESS
#define VALGRIND_MAKE_MEM_NOACCESS(place, size)
#define VALGRIND_MAKE_MEM_DEFINED(place, size)
#endif

enum { GUARD = 64, RESULT = 4096, WORK = 65536 };

static const char *file;
static unsigned long line, passed, failed;

static void wrong(const char *what)
{
    printf("%s:%lu: %s\n", file, line, what);
}

/* BUFFERS with guard bytes */

struct buffer {
    uint8_t *all, *data, *before; /* guard, data, guard; the data; a copy of all of it, made before the run */
    size_t size;
};

static void *memory(size_t size)
{
    void *p = malloc(size);
    if (!p) {
        fprintf(stderr, "no memory for a judged run\n");
        exit(2);
    }
    return p;
}

/* other bytes at each call */
static void noise(uint8_t *p, size_t size)
{
    static uint64_t state = 88172645463325252u;
    for (size_t i = 0; i < size; i++) {
        state ^= state << 13;
        state ^= state >> 7;
        state ^= state << 17;
        p[i] = (uint8_t)(state >> 32);
    }
}

static struct buffer new_buffer(size_t size)
{
    struct buffer b = {memory(size + 2 * GUARD), NULL, memory(size + 2 * GUARD), size};
    b.data = b.all + GUARD;
    noise(b.all, size + 2 * GUARD);
    return b;
}

static void close_guards(struct buffer *b)
{
    memcpy(b->before, b->all, b->size + 2 * GUARD);
    VALGRIND_MAKE_MEM_NOACCESS(b->all, GUARD);
    VALGRIND_MAKE_MEM_NOACCESS(b->data + b->size, GUARD);
}

static void open_guards(struct buffer *b)
{
    VALGRIND_MAKE_MEM_DEFINED(b->all, GUARD);
    VALGRIND_MAKE_MEM_DEFINED(b->data + b->size, GUARD);
}

static void free_buffer(struct buffer *b)
{
    free(b->all);
    free(b->before);
}

static int guards_kept(const struct buffer *b)
{
    return !memcmp(b->all, b->before, GUARD) && !memcmp(b->data + b->size, b->before + GUARD + b->size, GUARD);
}

static int untouched(const struct buffer *b)
{
    return !memcmp(b->all, b->before, b->size + 2 * GUARD);
}

static int cleared(const struct buffer *b)
{
    for (size_t i = 0; i < b->size; i++)
        if (b->data[i])
            return 0;
    return guards_kept(b);
}

/* bytes at the front, the rest as it was */
static int written(const struct buffer *b, const struct buffer *front)
{
    return front->size <= b->size && !memcmp(b->data, front->data, front->size)
           && !memcmp(b->data + front->size, b->before + GUARD + front->size, b->size - front->size) && guards_kept(b);
}

/* WORDS */

static int digit(char c)
{
    const char *digits = "0123456789abcdef", *at = c ? strchr(digits, c) : NULL;
    return at ? (int)(at - digits) : -1;
}

static int read_bytes(const char *word, struct buffer *b)
{
    size_t size = word && strcmp(word, "-") ? strlen(word) : 0;
    *b = new_buffer(size / 2);
    for (size_t i = 0; i < size / 2; i++) {
        int high = digit(word[2 * i]), low = digit(word[2 * i + 1]);
        if (high < 0 || low < 0)
            return 0;
        b->data[i] = (uint8_t)(16 * high + low);
    }
    return word && size % 2 == 0;
}

static int read_number(const char *word, uint64_t *n)
{
    char *end = NULL;
    *n = word ? strtoull(word, &end, 10) : 0;
    return word && *word && !*end;
}

/* A RUN: what it is given, and what is judged of it */

struct run {
    struct buffer sheet, arguments, input;
    uint64_t loops, stack, budget;
    uint64_t number, place; /* of the refusal; number 0: it ended */
    struct buffer result;   /* the result sheet */
};

static int read_run(char *text, struct run *r)
{
    char *rest = text, *word;
    int good = read_bytes(strsep(&rest, " \n"), &r->sheet);
    good &= read_bytes(strsep(&rest, " \n"), &r->arguments);
    good &= read_bytes(strsep(&rest, " \n"), &r->input);
    good &= read_number(strsep(&rest, " \n"), &r->loops);
    good &= read_number(strsep(&rest, " \n"), &r->stack);
    good &= read_number(strsep(&rest, " \n"), &r->budget);
    word = strsep(&rest, " \n");
    r->number = r->place = 0;
    if (!word || strcmp(word, "refused"))
        return read_bytes(word, &r->result) & good;
    good &= read_bytes("-", &r->result);
    good &= read_number(strsep(&rest, " \n"), &r->number);
    return read_number(strsep(&rest, " \n"), &r->place) & good;
}

static void free_run(struct run *r)
{
    free_buffer(&r->sheet);
    free_buffer(&r->arguments);
    free_buffer(&r->input);
    free_buffer(&r->result);
}

#endif
