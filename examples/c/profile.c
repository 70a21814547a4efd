/* Runs exercise A and prints its profile: what each function cost by itself and with all that it called.
 *
 * On x86-64, after `tools/staticlib`:
 *
 *     gcc -Iinclude examples/c/profile.c target/staticlib/libgateway.a -o profile && ./profile
 *
 * Three numbers, if given, are the loop limit, the stack limit and the budget. The bytes of a result sheet are as docs/FORMATS.md has them. */
#include <stdio.h>
#include <stdlib.h>

#include "exercise_a.h"
#include "klumavec.h"

static const char *const names[] = {"-", "f"}; /* of functions 0, which is main, and 1 */

static unsigned long number(const uint8_t *p, int bytes)
{
    return bytes ? p[0] + 256 * number(p + 1, bytes - 1) : 0;
}

/* kind 64: behaviour, result, steps */
static void print_end(const uint8_t *p)
{
    static const char *const behaviours[] = {"normal", "return", "exit", "failure"};
    printf("end %s %s %lu\n", behaviours[p[0]], p[1] ? "true" : "false", number(p + 2, 4));
}

/* kind 67: a function's number, the times it was entered, its own steps, the steps while it was open */
static void print_function(const uint8_t *p)
{
    printf("fn %lu %lu %lu %lu %s\n", number(p, 2), number(p + 2, 4), number(p + 6, 4), number(p + 10, 4), names[number(p, 2)]);
}

static void print_sheet(const uint8_t *p, size_t length)
{
    const uint8_t *end = p + length;
    for (; p < end; p += 4 + number(p, 2)) {
        if (number(p + 2, 2) == 64)
            print_end(p + 4);
        if (number(p + 2, 2) == 67)
            print_function(p + 4);
    }
}

static void print_refusal(unsigned refusal, unsigned place)
{
    static const char *const reasons[] = {
        "", "a memory has the wrong size", "a limit or the input is out of range", "the sheet is too large", "a record is faulty",
        "the argument sheet is faulty", "the budget is used up", "a string is too long", "a list is too long", "a stream is too long",
        "too many holds are open",
    };
    printf("refused %u at %u\n", refusal, place);
    fprintf(stderr, "profile: %s (place %u)\n", reasons[refusal], place);
}

int main(int count, char **words)
{
    static uint8_t result[KLUMAVEC_RESULT_SIZE], work[KLUMAVEC_WORK_SIZE];
    uint64_t limits[] = {0, 3, 37}; /* loop limit, stack limit, budget */
    for (int i = 1; i < count && i <= 3; i++)
        limits[i - 1] = strtoull(words[i], NULL, 10);
    uint64_t answer = klumavec_run(sheet, sizeof sheet, arguments, sizeof arguments, NULL, 0, limits[0], limits[1], limits[2],
                                   result, sizeof result, work, sizeof work);
    if (KLUMAVEC_ENDED(answer)) {
        print_sheet(result, KLUMAVEC_LENGTH(answer));
        return 0;
    }
    print_refusal(KLUMAVEC_NUMBER(answer), KLUMAVEC_PLACE(answer));
    return 1;
}
