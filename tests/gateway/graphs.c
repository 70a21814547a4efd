/* Sends judged runs with their edges through klumavec_graph: the files named hold lines as `vectors` has them, and behind a run that ends
 *     edge CALLER CALLEE CALLS INCLUSIVE
 * for each pair met, by caller, then callee, and perhaps `file BYTES`, the whole file. The file that a run has to write is made here, of the
 * names in its sheet, the figures in its result sheet and its edges. Each run is made with memories of several sizes. After --sizes a file's
 * lines have three sizes more in front of the answer, of the result, work and file memory; - for the last is a run of klumavec_run.
 * Ends with 'N passed, M failed', and with status 1 if M is not 0. */
#include "judged.h"

enum { FILE_SIZE = 65536, FUNCTIONS = 33 };

/* THE FILE that is expected */

struct graph {
    struct buffer whole; /* as a line of the file has it; size 0: no such line */
    unsigned long calls[FUNCTIONS][FUNCTIONS], steps[FUNCTIONS][FUNCTIONS];
    char text[FILE_SIZE];
    size_t size;
};

static void say(struct graph *g, const char *format, unsigned long a, unsigned long b)
{
    g->size += (size_t)snprintf(g->text + g->size, FILE_SIZE - g->size, format, a, b);
}

static unsigned long number(const uint8_t *p, int bytes)
{
    return bytes ? p[0] + 256 * number(p + 1, bytes - 1) : 0;
}

/* record n of a kind in the bytes, counted from 0; any kind for 0; NULL where there is none */
static const uint8_t *record(const struct buffer *b, unsigned kind, unsigned long n)
{
    for (const uint8_t *p = b->data; p + 4 <= b->data + b->size; p += 4 + number(p, 2))
        if ((!kind || number(p + 2, 2) == kind) && !n--)
            return p;
    return NULL;
}

static void say_names(struct graph *g, const struct run *r)
{
    const uint8_t *f, *name;
    for (unsigned long i = 0; (f = record(&r->sheet, 32, i)); i++) {
        name = record(&r->sheet, 0, number(f + 4, 2));
        say(g, "fn=(%lu) ", i + 2, 0);
        memcpy(g->text + g->size, name + 4, number(name, 2));
        g->size += number(name, 2);
        say(g, "\n", 0, 0);
    }
}

static void say_block(struct graph *g, unsigned long a, unsigned long own)
{
    say(g, "\nfn=(%lu)\n0 %lu\n", a + 1, own);
    for (unsigned long b = 1; b < FUNCTIONS; b++)
        if (g->calls[a][b]) {
            say(g, "cfn=(%lu)\n", b + 1, 0);
            say(g, "calls=%lu 0\n0 %lu\n", g->calls[a][b], g->steps[a][b]);
        }
}

static void make_file(struct graph *g, const struct run *r)
{
    unsigned long total = number(record(&r->result, 64, 0) + 6, 4);
    const uint8_t *row;
    g->size = 0;
    say(g, "# callgrind format\nversion: 1\ncreator: colis-runner\npositions: line\nevents: Steps\nsummary: %lu\n\n", total, 0);
    say(g, "fl=(1) ???\nfn=(1) (main)\n", 0, 0);
    say_names(g, r);
    for (unsigned long a = 0; (row = record(&r->result, 67, a)); a++)
        say_block(g, a, number(row + 10, 4));
    say(g, "\ntotals: %lu\n", total, 0);
}

/* THE CALL */

struct lent {
    struct buffer result, work, file;
};

static uint64_t call(struct run *r, struct lent *m, int graph)
{
    struct buffer *all[] = {&r->sheet, &r->arguments, &r->input, &m->result, &m->work, &m->file};
    uint64_t answer;
    for (int i = 0; i < 6; i++)
        close_guards(all[i]);
    if (graph)
        answer = klumavec_graph(r->sheet.data, r->sheet.size, r->arguments.data, r->arguments.size, r->input.data, r->input.size, r->loops,
                                r->stack, r->budget, m->result.data, m->result.size, m->work.data, m->work.size, m->file.data, m->file.size);
    else
        answer = klumavec_run(r->sheet.data, r->sheet.size, r->arguments.data, r->arguments.size, r->input.data, r->input.size, r->loops,
                              r->stack, r->budget, m->result.data, m->result.size, m->work.data, m->work.size);
    for (int i = 0; i < 6; i++)
        open_guards(all[i]);
    return answer;
}

/* the file, if it is known, at the front of its memory, the rest as it was */
static int file_kept(const struct lent *m, const struct graph *g, size_t size)
{
    return size <= m->file.size && (!g || (size == g->size && !memcmp(m->file.data, g->text, size)))
           && !memcmp(m->file.data + size, m->file.before + GUARD + size, m->file.size - size) && guards_kept(&m->file);
}

static int compare(const struct run *r, uint64_t number, uint64_t place, uint64_t answer, const struct lent *m, const struct graph *g, int graph)
{
    const char *fault = NULL;
    size_t size = number || !graph ? 0 : KLUMAVEC_FILE_LENGTH(answer);
    if (number ? answer != (number << 32 | place) : !KLUMAVEC_ENDED(answer) || KLUMAVEC_LENGTH(answer) != r->result.size)
        fault = "another number returned";
    else if (!(number ? untouched(&m->result) : written(&m->result, &r->result)))
        fault = "result memory is not as promised";
    else if (!(number == 1 || number == 14 ? untouched(&m->work) : cleared(&m->work)))
        fault = "work memory is not as promised";
    else if (!(size ? file_kept(m, g, size) : untouched(&m->file) && (number || !graph)))
        fault = "file memory is not as promised";
    else if (!untouched(&r->sheet) || !untouched(&r->arguments) || !untouched(&r->input))
        fault = "an input was written to";
    if (fault)
        wrong(fault);
    return !fault;
}

/* with memories of these sizes, the answer being what was judged or what the sizes are refused for */
static int run_with(struct run *r, const struct graph *g, const size_t *sizes, int graph)
{
    struct lent m = {new_buffer(sizes[0]), new_buffer(sizes[1]), new_buffer(sizes[2])};
    uint64_t short_memory = sizes[0] < RESULT || sizes[1] != WORK ? 1 : graph && sizes[2] < FILE_SIZE ? 14 : 0;
    uint64_t answer = call(r, &m, graph);
    int good = compare(r, short_memory ? short_memory : r->number, short_memory ? 0 : r->place, answer, &m, g, graph);
    free_buffer(&m.result);
    free_buffer(&m.work);
    free_buffer(&m.file);
    return good;
}

static int run_graph(struct run *r, struct graph *g)
{
    static const size_t sizes[][3] = {
        {RESULT, WORK, FILE_SIZE}, {RESULT + 5, WORK, FILE_SIZE + 907}, {RESULT, WORK, FILE_SIZE - 1}, {RESULT, WORK, 0},
        {RESULT - 1, WORK, FILE_SIZE}, {RESULT, WORK + 1, 0},
    };
    int good = 1;
    if (!r->number)
        make_file(g, r);
    if (g->whole.size && (g->whole.size != g->size || memcmp(g->whole.data, g->text, g->size))) {
        wrong("the file is not that of its figures");
        good = 0;
    }
    for (size_t i = 0; i < sizeof sizes / sizeof *sizes; i++)
        good &= run_with(r, g, sizes[i], 1);
    return good;
}

/* LINES */

static int read_edge(char *text, struct graph *g)
{
    unsigned long a, b, calls, steps;
    if (sscanf(text, "edge %lu %lu %lu %lu", &a, &b, &calls, &steps) != 4 || a >= FUNCTIONS || b >= FUNCTIONS || !calls)
        return 0;
    g->calls[a][b] = calls;
    g->steps[a][b] = steps;
    return 1;
}

static void count(int good)
{
    if (good)
        passed++;
    else
        failed++;
}

/* a run with the lines of its figures behind it; returns the line behind those */
static char **run_block(char **lines)
{
    static struct graph g;
    struct run r;
    int good = read_run(*lines++, &r);
    memset(&g, 0, sizeof g);
    g.whole = new_buffer(0);
    for (; *lines && !strncmp(*lines, "edge ", 5); lines++)
        good &= read_edge(*lines, &g);
    if (*lines && !strncmp(*lines, "file ", 5)) {
        free_buffer(&g.whole);
        good &= read_bytes(*lines++ + 5, &g.whole);
    }
    if (!good)
        wrong("not a line of the format");
    count(good && run_graph(&r, &g));
    free_buffer(&g.whole);
    free_run(&r);
    return lines;
}

/* a run with sizes, which stand between the budget and the answer: they are taken out, and the rest is a run's line */
static char **run_sizes(char **lines)
{
    char *at = *lines, *words[3] = {NULL, NULL, NULL}, *answer;
    size_t sizes[3];
    struct run r;
    int good;
    for (int i = 0; i < 6 && at; i++)
        at = strchr(at + 1, ' ');
    answer = at;
    for (int i = 0; i < 3 && answer; i++) {
        words[i] = answer + 1;
        answer = strchr(answer + 1, ' ');
    }
    for (int i = 0; i < 3; i++)
        sizes[i] = words[i] && *words[i] != '-' ? strtoull(words[i], NULL, 10) : 0;
    good = answer != NULL;
    int graph = good && *words[2] != '-';
    if (good)
        memmove(at, answer, strlen(answer) + 1);
    good &= read_run(*lines, &r);
    if (!good)
        wrong("not a line of the format");
    count(good && run_with(&r, NULL, sizes, graph));
    free_run(&r);
    return lines + 1;
}

/* the lines of a file, and NULL behind them */
static char **read_lines(const char *name)
{
    char **lines = NULL, *text = NULL;
    size_t size = 0, many = 0;
    FILE *in = fopen(name, "r");
    if (!in) {
        fprintf(stderr, "graphs: %s cannot be read\n", name);
        exit(2);
    }
    for (;; text = NULL, size = 0) {
        lines = realloc(lines, (many + 1) * sizeof *lines);
        if (!lines || getline(&text, &size, in) <= 0)
            break;
        text[strcspn(text, "\n")] = 0;
        lines[many++] = text;
    }
    free(text);
    fclose(in);
    if (!lines)
        exit(2);
    lines[many] = NULL;
    return lines;
}

static void run_file(const char *name, int with_sizes)
{
    char **lines = read_lines(name), **at = lines;
    file = name;
    while (*at) {
        line = (unsigned long)(at - lines) + 1;
        if (!**at || **at == '#')
            at++;
        else
            at = with_sizes ? run_sizes(at) : run_block(at);
    }
    for (at = lines; *at; at++)
        free(*at);
    free(lines);
}

int main(int count, char **names)
{
    int with_sizes = count > 1 && !strcmp(names[1], "--sizes");
    for (int i = 1 + with_sizes; i < count; i++)
        run_file(names[i], with_sizes);
    printf("%lu passed, %lu failed\n", passed, failed);
    return failed != 0;
}
