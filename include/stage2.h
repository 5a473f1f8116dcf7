/* STAGE2 for name tables: check a text, fit a line against a text's templates, and run a text.
 *
 * Link with lib/libstage2.a of a package, or with target/staticlib/libapi.a, which `tools/build api` writes in the repository
 * (x86-64 Linux). The calls keep nothing between one and the next, allocate nothing, and may run in several threads at once. A
 * check and a fit need 128 KB of stack, a run 256 KB; the deepest search that was found takes 57 KB, and a run with it 166 KB.
 *
 * An array is passed as a pointer and a count of elements. No pointer may be NULL, not even with a count of 0. The arrays
 * that a call writes to, the node row, the row of dead places, both outputs, the store and the report, overlap neither each
 * other nor the text or line. Nothing else is asked: every content and every count has its answer.
 */
#ifndef STAGE2_H
#define STAGE2_H

#include <stddef.h>
#include <stdint.h>

#ifdef __cplusplus
extern "C" {
#endif

/* The least count of a node row. The calls use no more of it than this. */
#define STAGE2_NODES 2048

/* The least count of a row of dead places: a bit for each node at each position of a line. A place is a node together with a
 * position in the line that is fitted; one that is found to lead nowhere is marked in this row and not taken up again. A caller
 * only lends the row: what it holds before a call and after it means nothing. The calls use no more of it than this. */
#define STAGE2_DEAD 51456

/* The longest line that can be fitted. */
#define STAGE2_LINE 200

/* The largest fuel; the least is 1. */
#define STAGE2_FUEL 1000000

/* The least count of a store. No run lists more than this. */
#define STAGE2_STORE 8704

/* The least count of a report. No run reports more than this. */
#define STAGE2_REPORT 2048

/* The key of a node's element: a literal's is its byte, then come a template's end, a placeholder, and the root, which has no
 * element. */
#define STAGE2_END_KEY 256
#define STAGE2_PLACEHOLDER_KEY 257
#define STAGE2_ROOT_KEY 258

/* A node of the tree of a text's templates, which has a node for each distinct beginning of a template. A caller lends a row of
 * them; what they hold before a call means nothing. After stage2_fit and stage2_run of a text that loads, where the number is
 * not 1, the tree stands at the front of the row: node 0 is the root, and the children of each node stand side by side,
 * ascending by their keys: literals by their bytes, then the end, then the placeholder. What the other nodes hold means
 * nothing, and so do all nodes after stage2_check and after a text that does not load. */
typedef struct {
    uint16_t element;   /* the key of its element */
    uint16_t first;     /* the first child */
    uint16_t count;     /* how many children stand from there on; 0 at a template's end */
    uint16_t template_; /* at an end the template's place in the text, from 0 on; C++ keeps the name without the underscore */
    uint16_t height;    /* how many elements may follow it: 201 less the length of its beginning */
    uint16_t holes;     /* how many placeholders its beginning has */
} stage2_node;

/* What checking a text gives. */
typedef struct {
    uint64_t number; /* 0 where the text loads, else why not: 1 to 9 of the table of numbers */
    uint64_t line;   /* the section's last line, or the line of the fault; 0 for numbers 1 and 2 */
} stage2_checked;

/* What fitting a line gives. Fields that say nothing are 0. An atom is a byte that is no bracket, or a bracket with its partner and
 * all between them; a piece is a row of atoms. */
typedef struct {
    uint64_t number;    /* 0, or 1 to 9 where the text does not load, or 11 for a line over 200 bytes */
    uint64_t line;      /* number 0: the template's line in the text, 0 for no call. 1 to 9: the line of the fault */
    uint64_t start[9];  /* where each parameter's piece starts in the line, counted from 0 */
    uint64_t length[9]; /* and how many bytes it has */
    uint64_t places;    /* number 0: how many places were taken up, at most the tree's nodes times (the line's count + 1) */
    uint64_t bytes;     /* number 0: how many bytes were read where atoms were looked for, at most places times the line's count */
} stage2_fitted;

/* What a run gives. Fields that say nothing are 0. */
typedef struct {
    uint64_t number; /* 0 where the run is done, else what ended it: 11 to 21; or 1 to 9 where no run began */
    uint64_t line;   /* the last input line read, before any the section's last line. 1 to 9: the line of the fault */
    uint64_t events; /* how many lines were offered and code lines begun */
    uint64_t output; /* how many bytes of the output are written, which is channel 3 */
    uint64_t second; /* how many bytes of the second output are written, which is channel 4 */
    uint64_t store;  /* how many bytes of the store are written */
    uint64_t report; /* how many bytes of the report are written */
} stage2_ran;

/* Checks whether a text loads. With fewer than STAGE2_NODES nodes the number is 1. Writes to the node row alone. */
stage2_checked stage2_check(const uint8_t *text, size_t text_count,
                            stage2_node *nodes, size_t nodes_count);

/* Fits a line, taken whole, against the templates of a text: the first of all its readings, or none. Bytes 0 and 10 and the
 * text's marks are bytes like any other. With fewer than STAGE2_NODES nodes or a row of dead places below STAGE2_DEAD the
 * number is 1. Writes to these two rows alone. */
stage2_fitted stage2_fit(const uint8_t *text, size_t text_count,
                         stage2_node *nodes, size_t nodes_count,
                         uint8_t *dead, size_t dead_count,
                         const uint8_t *line, size_t line_count);

/* Expands the input lines of a text, with at most so many events. The first bytes of the output are what is written to channel
 * 3, lines without a reading among them, and those of the second output what is written to channel 4; those of the store are a
 * line of the stored names, byte 0 between them, then a line for each text. Those of the report are a line `template,calls`,
 * then for each template, in the text's order, a line with its line number, a comma and the number of lines that it was chosen
 * for, and last such a line with 0 for its number, which counts the lines without a reading; byte 10 ends each. A line counts
 * when its reading is decided, even where 13 or 14 ends the run at it, so that the counts add up to the lines that were offered.
 * The store and the report are written after every run that began, whichever number ended it. All other bytes of the four stay
 * as they were, and for numbers 1 to 9 all bytes do. With a fuel that is not 1 to STAGE2_FUEL, fewer than STAGE2_NODES nodes, a
 * row of dead places below STAGE2_DEAD, a store below STAGE2_STORE or a report below STAGE2_REPORT the number is 1. Each output
 * may have any count: 13 says that one of them lacks room for a line, and a text that writes nothing to channel 4 needs no
 * second output but a pointer and 0. A text need not be UTF-8: only where code counts, values or takes apart characters do
 * malformed bytes end the run, with 21. */
stage2_ran stage2_run(const uint8_t *text, size_t text_count,
                      uint64_t fuel,
                      stage2_node *nodes, size_t nodes_count,
                      uint8_t *dead, size_t dead_count,
                      uint8_t *output, size_t output_count,
                      uint8_t *second, size_t second_count,
                      uint8_t *store, size_t store_count,
                      uint8_t *report, size_t report_count);

#ifdef __cplusplus
}
#endif

#endif
