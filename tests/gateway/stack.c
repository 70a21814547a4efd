/* Measures how deep klumavec_run goes on the native stack: for each kind of nest, a sheet of 512 records in which a function calls
 * itself through the deepest nest of that kind, until the stack limit or the holds are used up. The run has a painted stack of its
 * own; what was written below the caller's frame is counted. Prints a line a nest, then the deepest, in bytes; fails if that is more
 * than the header tells callers to leave free. */
#define _DEFAULT_SOURCE
#include <pthread.h>
#include <stdio.h>
#include <stdlib.h>
#include <string.h>
#include <sys/mman.h>

#include "klumavec.h"

enum { RECORDS = 512, STACK = 64 << 20, GUARD = 1 << 16, PAINT = 0xA5 };
enum { TEXT = 1, EMBEDDED = 4, JOIN, EMPTY, FIELD, SPLIT, SEQUENCE = 18, SUBSHELL, NOT, IF, NOOUTPUT, PIPE, UTILITY, CALL, FOR, WHILE,
       SHIFT = 30, FUNCTION = 32, MAIN };

/* A SHEET, record by record */

struct sheet {
    uint8_t bytes[8192];
    size_t size;
    unsigned records;
};

static void number(struct sheet *s, unsigned n)
{
    s->bytes[s->size++] = n & 255;
    s->bytes[s->size++] = n >> 8;
}

static unsigned record(struct sheet *s, unsigned kind, unsigned count, const unsigned *parts)
{
    number(s, 2 * count);
    number(s, kind);
    for (unsigned i = 0; i < count; i++)
        number(s, parts[i]);
    return s->records++;
}

#define RECORD(s, kind, ...) \
    record(s, kind, sizeof((unsigned[]){__VA_ARGS__}) / sizeof(unsigned), (unsigned[]){__VA_ARGS__})

static unsigned text(struct sheet *s, const char *bytes)
{
    number(s, strlen(bytes));
    number(s, TEXT);
    memcpy(s->bytes + s->size, bytes, strlen(bytes));
    s->size += strlen(bytes);
    return s->records++;
}

/* NESTS: records of one kind around another, whose part number `inner` is what they enclose */

enum sort { INSTRUCTIONS, LISTS, STRINGS };

struct nest {
    const char *name;
    enum sort sort;
    unsigned kind, parts, inner;
    int once; /* it opens a hold: one of it in each level, in a nest of nots */
};

static const struct nest nests[] = {
    {"not", INSTRUCTIONS, NOT, 1, 0, 0},
    {"sequence, first", INSTRUCTIONS, SEQUENCE, 2, 0, 0},
    {"sequence, second", INSTRUCTIONS, SEQUENCE, 2, 1, 0},
    {"if, test", INSTRUCTIONS, IF, 3, 0, 0},
    {"if, then", INSTRUCTIONS, IF, 3, 1, 0},
    {"while, test", INSTRUCTIONS, WHILE, 2, 0, 0},
    {"while, body", INSTRUCTIONS, WHILE, 2, 1, 0},
    {"subshell", INSTRUCTIONS, SUBSHELL, 1, 0, 1},
    {"nooutput", INSTRUCTIONS, NOOUTPUT, 1, 0, 1},
    {"pipe, first", INSTRUCTIONS, PIPE, 2, 0, 1},
    {"pipe, second", INSTRUCTIONS, PIPE, 2, 1, 1},
    {"for", INSTRUCTIONS, FOR, 3, 2, 1},
    {"split", LISTS, SPLIT, 2, 1, 0},
    {"join, left", STRINGS, JOIN, 2, 0, 0},
    {"join, right", STRINGS, JOIN, 2, 1, 0},
};

/* the records that a sheet begins with: their numbers are their places here */
enum { NAME, NOTHING, AGAIN, TRUE, NO_BYTES, ONE_FIELD, BYTES_OF_AGAIN, FIELD_OF_AGAIN };

static void begin(struct sheet *s, const struct nest *n)
{
    text(s, "f");
    record(s, EMPTY, 0, NULL);
    RECORD(s, CALL, NAME, NOTHING);
    if (n->kind == NOT)
        return; /* these are enough, and leave room for more nots */
    RECORD(s, SHIFT, 0);
    text(s, "");
    RECORD(s, FIELD, NO_BYTES, NOTHING);
    RECORD(s, EMBEDDED, AGAIN);
    RECORD(s, FIELD, BYTES_OF_AGAIN, NOTHING);
}

static unsigned link_of(struct sheet *s, const struct nest *n, unsigned inside)
{
    unsigned other = n->sort == INSTRUCTIONS ? TRUE : NO_BYTES;
    unsigned parts[3] = {other, other, other};
    if (n->kind == FOR) {
        parts[0] = NAME;
        parts[1] = ONE_FIELD;
    }
    parts[n->inner] = inside;
    return record(s, n->kind, n->parts, parts);
}

/* f does what main does, and that leads to a call of f */
static void build(struct sheet *s, const struct nest *n)
{
    static const unsigned bases[] = {AGAIN, FIELD_OF_AGAIN, BYTES_OF_AGAIN};
    unsigned after = n->sort == INSTRUCTIONS ? 2 : n->sort == LISTS ? 3 : 4;
    memset(s, 0, sizeof *s);
    begin(s, n);
    unsigned top = bases[n->sort];
    if (n->once)
        top = link_of(s, n, top);
    while (s->records < RECORDS - after)
        top = link_of(s, n->once ? &nests[0] : n, top);
    if (n->sort == STRINGS)
        top = RECORD(s, FIELD, top, NOTHING);
    if (n->sort != INSTRUCTIONS)
        top = RECORD(s, UTILITY, NAME, top);
    RECORD(s, FUNCTION, NAME, top);
    RECORD(s, MAIN, top);
}

/* A RUN on a painted stack */

struct run {
    struct sheet sheet;
    uint8_t result[4096], work[65536];
    uint64_t answer;
    uint8_t *frame; /* of the caller */
};

static void *start(void *p)
{
    static const uint8_t arguments[] = {1, 0, 1, 0, 'x'};
    struct run *r = p;
    r->frame = __builtin_frame_address(0);
    r->answer = klumavec_run(r->sheet.bytes, r->sheet.size, arguments, sizeof arguments, NULL, 0, 1, 10, 1000000, r->result,
                             sizeof r->result, r->work, sizeof r->work);
    return NULL;
}

static size_t measure(struct run *r, uint8_t *stack)
{
    pthread_attr_t attr;
    pthread_t thread;
    memset(stack, PAINT, STACK);
    if (pthread_attr_init(&attr) || pthread_attr_setstack(&attr, stack, STACK) || pthread_create(&thread, &attr, start, r)
        || pthread_join(thread, NULL)) {
        fprintf(stderr, "stack: no thread\n");
        exit(2);
    }
    pthread_attr_destroy(&attr);
    uint8_t *low = stack;
    while (low < r->frame && *low == PAINT)
        low++;
    return r->frame - low;
}

/* the run went as deep as it can: it ended in Failure at the stack limit, or an eleventh hold was refused */
static int deep_enough(const struct run *r)
{
    return r->answer >> 32 == 10 || (r->answer >> 32 == 0 && r->result[4] == 3);
}

int main(void)
{
    static struct run r;
    size_t deepest = 0;
    uint8_t *memory = mmap(NULL, GUARD + STACK, PROT_NONE, MAP_PRIVATE | MAP_ANONYMOUS | MAP_NORESERVE, -1, 0);
    if (memory == MAP_FAILED || mprotect(memory + GUARD, STACK, PROT_READ | PROT_WRITE)) {
        fprintf(stderr, "stack: no memory\n");
        return 2;
    }
    for (size_t i = 0; i < sizeof nests / sizeof *nests; i++) {
        build(&r.sheet, &nests[i]);
        size_t used = measure(&r, memory + GUARD);
        printf("%-16s %9zu bytes  answer %llx\n", nests[i].name, used, (unsigned long long)r.answer);
        if (!deep_enough(&r)) {
            fprintf(stderr, "stack: this nest was not run to its depth\n");
            return 1;
        }
        deepest = used > deepest ? used : deepest;
    }
    printf("deepest %zu bytes, of %u that a caller leaves free\n", deepest, KLUMAVEC_STACK_SIZE);
    return deepest > KLUMAVEC_STACK_SIZE;
}
