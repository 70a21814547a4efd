/* Klumavec for C: one run of a sheet, with its call graph or without. Link with libgateway.a (x86-64 Linux), which `tools/staticlib` makes.
 * docs/FORMATS.md tells the bytes that go in and come out, and every refusal; docs/LANGUAGE.md tells what a script does and what it costs. */
#ifndef KLUMAVEC_H
#define KLUMAVEC_H

#include <stddef.h>
#include <stdint.h>

#ifdef __cplusplus
extern "C" {
#endif

/* Sizes in bytes. */
#define KLUMAVEC_RESULT_SIZE 4096u   /* result memory: at least; a result sheet takes at most 3,744 of it */
#define KLUMAVEC_WORK_SIZE 65536u    /* work memory: exactly */
#define KLUMAVEC_FILE_SIZE 65536u    /* file memory: at least; a file takes at most 39,752 of it */
#define KLUMAVEC_STACK_SIZE 2097152u /* native stack to leave free for a run: see below */

/* What an answer says. */
#define KLUMAVEC_ENDED(answer) ((uint64_t)(answer) >> 32 == 0)                 /* else it is a refusal */
#define KLUMAVEC_LENGTH(answer) ((size_t)((uint64_t)(answer) & 0xffffu))       /* of the result sheet, after an end */
#define KLUMAVEC_FILE_LENGTH(answer) ((size_t)((uint64_t)(answer) >> 16))     /* of the file, after an end of klumavec_graph */
#define KLUMAVEC_NUMBER(answer) ((unsigned)((uint64_t)(answer) >> 32))        /* of the refusal, 1 to 10 or 14 */
#define KLUMAVEC_PLACE(answer) ((unsigned)((uint64_t)(answer) & 0xffffffffu)) /* of the refusal: a record, or 0; at most 512 */

/* Runs the script of `sheet` (records of kinds 1 to 33, at most 512 in at most 8,192 bytes) with `arguments` (1 to 17 records of kind 1,
 * argument 0 first) and the standard input `input` (at most 1,024 bytes).
 *
 *   loop_limit   how often the body of a while may run: at most 65,535
 *   stack_limit  how many calls may be open at once: at most 10
 *   budget       how many steps the run may make: 1 to 1,000,000
 *
 * More room is harmless: all else being the same, a run that ended in a behaviour other than Failure has the same result sheet under accepted
 * limits that are each at least as large. An end in Failure can change, and so can refusals 6 and 2; no other refusal does.
 *
 * An ended run, in whatever behaviour, returns the length of the result sheet, which stands at the front of `result`: records of kind 64
 * (behaviour, result, steps), 65 (output), 66 (a variable) and 67 (a function's figures), byte by byte in docs/FORMATS.md. A refusal returns
 * its number * 2^32 + its place:
 *
 *   1  a memory of the wrong size                    6  no step of the budget is left
 *   2  a limit, or the input's size, out of range    7  a string longer than 63 bytes
 *   3  too long a sheet, too much in it              8  a list of more than 16 fields
 *   4  a record is faulty, or main is not the last   9  more than 1,024 bytes in a stream
 *   5  the argument sheet is faulty                 10  more than ten holds open
 *
 * If several hold, the first in the order of docs/FORMATS.md is returned; the same page says which record a place names.
 *
 * Everything may be wrong: any bytes and any numbers are answered, and nothing outside the memories named is read or written. After an
 * end the rest of `result` is as before; after a refusal all of it is. `work` is all 0 after every call but refusal 1, which leaves both
 * memories as they were; what either holds before does not matter. Nothing is kept from one call to the next, and calls with memories of
 * their own may run at the same time.
 *
 * The caller sees to it that each pointer is good for its size (any pointer, NULL too, for size 0), that `result` and `work` overlap
 * neither each other nor an input, and that there is stack: the deepest nest that a sheet can have takes 1,074,928 bytes (measured by
 * tests/gateway, not proved), and a run that finds less is stopped by the system. KLUMAVEC_STACK_SIZE is nearly twice that: a main thread's
 * usual 8 MiB is enough, and a thread should have more than 2 MiB. */
uint64_t klumavec_run(const uint8_t *sheet, size_t sheet_size,
                      const uint8_t *arguments, size_t arguments_size,
                      const uint8_t *input, size_t input_size,
                      uint64_t loop_limit, uint64_t stack_limit, uint64_t budget,
                      uint8_t *result, size_t result_size,
                      uint8_t *work, size_t work_size);

/* The same run, and its call graph: an ended run also writes a file in the Callgrind format, for KCachegrind and QCachegrind, at the front
 * of `file`, and returns the file's length * 65,536 + the length of the result sheet. docs/CALLGRAPH.md tells what its figures mean,
 * docs/FORMATS.md its bytes. `result` and `work` become what klumavec_run makes of them. One refusal more:
 *
 *  14  less than 65,536 bytes of file memory: right after 1, and all memory is as before, `work` too
 *
 * After an end the rest of `file` is as before; after a refusal all of it is. It must overlap neither another memory nor an input. */
uint64_t klumavec_graph(const uint8_t *sheet, size_t sheet_size,
                        const uint8_t *arguments, size_t arguments_size,
                        const uint8_t *input, size_t input_size,
                        uint64_t loop_limit, uint64_t stack_limit, uint64_t budget,
                        uint8_t *result, size_t result_size,
                        uint8_t *work, size_t work_size,
                        uint8_t *file, size_t file_size);

#ifdef __cplusplus
}
#endif

#endif
