/* Expands one text with the library, and prints both outputs, the answer, the stored names and the usage report.
 *
 * In a package:
 *
 *     cc -Iinclude examples/link/expand.c lib/libstage2.a -o expand_c
 *
 * In the repository, after `tools/build api`:
 *
 *     cc -Iinclude examples/link/expand.c target/staticlib/libapi.a -o expand_c
 */
#include <stdio.h>
#include <string.h>

#include "stage2.h"

static stage2_node nodes[STAGE2_NODES];
static uint8_t dead[STAGE2_DEAD];
static uint8_t output[65536];
static uint8_t second[65536];
static uint8_t store[STAGE2_STORE];
static uint8_t report[STAGE2_REPORT];

int main(void) {
    const char *text =
        "$!$!0 (+-*/)\n"
        "NAME !&amp;!$\n"
        "NAME !10&!20$\n"
        "$\n"
        "NAME !$\n"
        "!10!26$\n"
        "family!16$\n"
        "!F3$\n"
        "!20!F13$\n"
        "h1 { font-family: !20; }!F14$\n"
        "$$\n"
        "NAME Kern &amp; Co$\n";
    stage2_ran ran = stage2_run((const uint8_t *)text, strlen(text), 1000000, nodes, STAGE2_NODES, dead, sizeof dead,
                                output, sizeof output, second, sizeof second, store, sizeof store, report, sizeof report);
    puts("channel 3:");
    fwrite(output, 1, ran.output, stdout);
    puts("channel 4:");
    fwrite(second, 1, ran.second, stdout);
    printf("number %d, line %d, events %d\n", (int)ran.number, (int)ran.line, (int)ran.events);
    fwrite(store, 1, ran.store, stdout);
    fwrite(report, 1, ran.report, stdout);
    return 0;
}
