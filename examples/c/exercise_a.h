/* Exercise A as bytes: the function f calls itself with one argument fewer as long as it has one; main calls it with two. exercises/a.listing
 * is the same script; docs/FORMATS.md tells the bytes, docs/LANGUAGE.md what the records do. */
#ifndef EXERCISE_A_H
#define EXERCISE_A_H

#include <stdint.h>

/* a record: the length of its payload, its kind, the payload; all numbers have two bytes, the lower first */
#define TWO(n) (n) & 255, (n) >> 8
#define RECORD(kind, length) TWO(length), TWO(kind)

/* a reference is the number of an earlier record, counted from 0 */
static const uint8_t sheet[] = {
    RECORD(1, 1), 'f',                        /*  0 text */
    RECORD(1, 1), 'a',                        /*  1 text */
    RECORD(1, 1), 'b',                        /*  2 text */
    RECORD(1, 2), '-', 'n',                   /*  3 text */
    RECORD(1, 4), 't', 'e', 's', 't',         /*  4 text */
    RECORD(1, 4), 't', 'r', 'u', 'e',         /*  5 text */
    RECORD(3, 2), TWO(1),                     /*  6 argument 1 */
    RECORD(3, 2), TWO(2),                     /*  7 argument 2 */
    RECORD(6, 0),                             /*  8 empty list */
    RECORD(7, 4), TWO(6), TWO(8),             /*  9 field: argument 1 */
    RECORD(7, 4), TWO(3), TWO(9),             /* 10 field: -n, argument 1 */
    RECORD(24, 4), TWO(4), TWO(10),           /* 11 utility: test -n argument 1 */
    RECORD(7, 4), TWO(7), TWO(8),             /* 12 field: argument 2 */
    RECORD(25, 4), TWO(0), TWO(12),           /* 13 call: f argument 2 */
    RECORD(24, 4), TWO(5), TWO(8),            /* 14 utility: true */
    RECORD(21, 6), TWO(11), TWO(13), TWO(14), /* 15 if test then call else true */
    RECORD(32, 4), TWO(0), TWO(15),           /* 16 function f: the if */
    RECORD(7, 4), TWO(2), TWO(8),             /* 17 field: b */
    RECORD(7, 4), TWO(1), TWO(17),            /* 18 field: a, b */
    RECORD(25, 4), TWO(0), TWO(18),           /* 19 call: f a b */
    RECORD(33, 2), TWO(19),                   /* 20 main: the call */
};

static const uint8_t arguments[] = {RECORD(1, 1), 'x'};

#endif
