/* Runs exercise A and writes its call graph, for KCachegrind or QCachegrind: ./graph > callgrind.out.a
 *
 * On x86-64, after `tools/staticlib`:
 *
 *     gcc -Iinclude examples/c/graph.c target/staticlib/libgateway.a -o graph && ./graph > callgrind.out.a
 *
 * docs/CALLGRAPH.md tells what the figures mean and how to open the file. */
#include <stdio.h>

#include "exercise_a.h"
#include "klumavec.h"

int main(void)
{
    static uint8_t result[KLUMAVEC_RESULT_SIZE], work[KLUMAVEC_WORK_SIZE], file[KLUMAVEC_FILE_SIZE];
    uint64_t answer = klumavec_graph(sheet, sizeof sheet, arguments, sizeof arguments, NULL, 0, 0, 3, 37, /* loop limit, stack limit, budget */
                                     result, sizeof result, work, sizeof work, file, sizeof file);
    if (!KLUMAVEC_ENDED(answer)) {
        fprintf(stderr, "graph: refused %u at %u\n", KLUMAVEC_NUMBER(answer), KLUMAVEC_PLACE(answer));
        return 1;
    }
    size_t size = KLUMAVEC_FILE_LENGTH(answer);
    return fwrite(file, 1, size, stdout) != size || fflush(stdout);
}
