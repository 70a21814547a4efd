/* Sends judged runs through klumavec_run: the files named hold one a line,
 *     SHEET ARGUMENTS INPUT LOOPS STACK BUDGET refused NUMBER PLACE
 *     SHEET ARGUMENTS INPUT LOOPS STACK BUDGET RESULT
 * with bytes in hex (- for none); # begins a comment, and `edge` or `file` a line for `graphs`. Every buffer has guard bytes on both sides; both memories hold noise before
 * the run. The number returned, every byte of both memories and all guards have to be as promised. Each line is run with memories of
 * several sizes, the wrong ones among them. Ends with 'N passed, M failed', and with status 1 if M is not 0. */
#include "judged.h"

/* THE CALL */

static uint64_t call(struct run *r, struct buffer *result, struct buffer *work)
{
    struct buffer *all[] = {&r->sheet, &r->arguments, &r->input, result, work};
    uint64_t answer;
    for (int i = 0; i < 5; i++)
        close_guards(all[i]);
    answer = klumavec_run(r->sheet.data, r->sheet.size, r->arguments.data, r->arguments.size, r->input.data, r->input.size, r->loops,
                          r->stack, r->budget, result->data, result->size, work->data, work->size);
    for (int i = 0; i < 5; i++)
        open_guards(all[i]);
    return answer;
}

static int compare(const struct run *r, uint64_t number, uint64_t place, uint64_t answer, const struct buffer *result,
                   const struct buffer *work)
{
    const char *fault = NULL;
    if (answer != (number ? number << 32 | place : r->result.size))
        fault = "another number returned";
    else if (!(number ? untouched(result) : written(result, &r->result)))
        fault = "result memory is not as promised";
    else if (!(number == 1 ? untouched(work) : cleared(work)))
        fault = "work memory is not as promised";
    else if (!untouched(&r->sheet) || !untouched(&r->arguments) || !untouched(&r->input))
        fault = "an input was written to";
    if (fault)
        wrong(fault);
    return !fault;
}

/* with memories of these sizes; those that are wrong are refusal 1 */
static int run_with(struct run *r, size_t result_size, size_t work_size)
{
    struct buffer result = new_buffer(result_size), work = new_buffer(work_size);
    int sizes = result_size >= RESULT && work_size == WORK;
    uint64_t answer = call(r, &result, &work);
    int good = compare(r, sizes ? r->number : 1, sizes ? r->place : 0, answer, &result, &work);
    free_buffer(&result);
    free_buffer(&work);
    return good;
}

static void run_line(char *text)
{
    struct run r;
    int good = read_run(text, &r);
    if (!good)
        wrong("not a line of the format");
    good = good && run_with(&r, RESULT, WORK) && run_with(&r, RESULT + 907, WORK) && run_with(&r, RESULT - 1, WORK)
           && run_with(&r, RESULT, WORK - 1) && run_with(&r, RESULT, WORK + 1) && run_with(&r, 0, 0);
    if (good)
        passed++;
    else
        failed++;
    free_run(&r);
}

static void run_file(const char *name)
{
    char *text = NULL;
    size_t size = 0;
    FILE *in = fopen(name, "r");
    file = name;
    if (!in) {
        fprintf(stderr, "vectors: %s cannot be read\n", name);
        exit(2);
    }
    for (line = 1; getline(&text, &size, in) > 0; line++)
        if (*text != '#' && *text != '\n' && strncmp(text, "edge ", 5) && strncmp(text, "file ", 5))
            run_line(text);
    free(text);
    fclose(in);
}

int main(int count, char **names)
{
    for (int i = 1; i < count; i++)
        run_file(names[i]);
    printf("%lu passed, %lu failed\n", passed, failed);
    return failed != 0;
}
