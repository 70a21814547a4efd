/* A runner that is right but for one byte. It writes that beside or behind a memory, and the comparison has to tell each; or a limit
 * shows in it, and the law that raising a limit is harmless has to tell each. */
#include <stddef.h>
#include <stdint.h>
#include <stdlib.h>

uint64_t right_run(const uint8_t *sheet, size_t sheet_size, const uint8_t *arguments, size_t arguments_size, const uint8_t *input,
                   size_t input_size, uint64_t loop_limit, uint64_t stack_limit, uint64_t budget, uint8_t *result, size_t result_size,
                   uint8_t *work, size_t work_size);

uint64_t right_graph(const uint8_t *sheet, size_t sheet_size, const uint8_t *arguments, size_t arguments_size, const uint8_t *input,
                     size_t input_size, uint64_t loop_limit, uint64_t stack_limit, uint64_t budget, uint8_t *result, size_t result_size,
                     uint8_t *work, size_t work_size, uint8_t *file, size_t file_size);

/* the first four places are those of a run without a file, the others those of a run with one */
enum { PLACES_OF_RUN = 4, PLACES_OF_GRAPH = 6, LIMITS = 3 };

/* changes one of the bytes if WRONG names it, counted from the first of these places */
static void spoil(uint8_t *const *places, int first, int count)
{
    const char *which = getenv("WRONG");

    if (which && atoi(which) >= first && atoi(which) < first + count)
        *places[atoi(which) - first] ^= 1;
}

/* the next three numbers are of runs that end without a file, the last three of such runs with one: a limit changes the byte */
static void show_limit(uint8_t *place, uint64_t answer, int first, uint64_t loop_limit, uint64_t stack_limit, uint64_t budget)
{
    const char *which = getenv("WRONG");
    const uint64_t limits[LIMITS] = {loop_limit, stack_limit, budget};

    if (which && answer >> 32 == 0 && atoi(which) >= first && atoi(which) < first + LIMITS)
        *place ^= (uint8_t)limits[atoi(which) - first];
}

uint64_t klumavec_run(const uint8_t *sheet, size_t sheet_size, const uint8_t *arguments, size_t arguments_size, const uint8_t *input,
                      size_t input_size, uint64_t loop_limit, uint64_t stack_limit, uint64_t budget, uint8_t *result, size_t result_size,
                      uint8_t *work, size_t work_size)
{
    uint64_t answer = right_run(sheet, sheet_size, arguments, arguments_size, input, input_size, loop_limit, stack_limit, budget, result,
                                result_size, work, work_size);
    uint8_t *wrong[PLACES_OF_RUN] = {result - 1, result + result_size, work - 1, work + work_size};

    spoil(wrong, 0, PLACES_OF_RUN);
    /* the lowest byte of the steps */
    show_limit(result + 6, answer, PLACES_OF_RUN + PLACES_OF_GRAPH, loop_limit, stack_limit, budget);
    return answer;
}

uint64_t klumavec_graph(const uint8_t *sheet, size_t sheet_size, const uint8_t *arguments, size_t arguments_size, const uint8_t *input,
                        size_t input_size, uint64_t loop_limit, uint64_t stack_limit, uint64_t budget, uint8_t *result, size_t result_size,
                        uint8_t *work, size_t work_size, uint8_t *file, size_t file_size)
{
    uint64_t answer = right_graph(sheet, sheet_size, arguments, arguments_size, input, input_size, loop_limit, stack_limit, budget, result,
                                  result_size, work, work_size, file, file_size);
    uint8_t *wrong[PLACES_OF_GRAPH] = {result - 1, result + result_size, work - 1, work + work_size, file - 1, file + file_size};

    spoil(wrong, PLACES_OF_RUN, PLACES_OF_GRAPH);
    show_limit(file, answer, PLACES_OF_RUN + PLACES_OF_GRAPH + LIMITS, loop_limit, stack_limit, budget);
    return answer;
}
