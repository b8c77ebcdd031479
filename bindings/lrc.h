/* Grammars of Yacc and Bison: what lrcheck tells of them, and their LR tables. docs/LIBRARY.md says what the numbers mean.
 *
 * A call reads `length` bytes at `text`. It answers how much there is to tell, and writes as much of it to `out` as there is
 * room for, so one with more room gives the rest. Where it answers 0 or LRC_TOO_LARGE, it writes nothing. Nothing is kept from
 * call to call, no text is ended by a NUL, and neither pointer may be NULL. */
#ifndef LRC_H
#define LRC_H

#include <stddef.h>
#include <stdint.h>

#ifdef __cplusplus
extern "C" {
#endif

/* Memory was refused, or a number of the table has more than 32 bits. */
#define LRC_TOO_LARGE SIZE_MAX

/* The kinds of report: all that lrcheck tells, the verdict alone, JSON with the grammar, and a page for a browser. */
enum lrc_kind { LRC_REPORT, LRC_SUMMARY, LRC_JSON, LRC_PAGE };

/* A report on the text, in bytes of UTF-8. 0 where the kind is none of these, or where it is LRC_PAGE and the text is no grammar,
 * as its other reports tell. */
size_t lrc_report(const char *text, size_t length, uint32_t kind, char *out, size_t room);

/* The table of the text's grammar, as numbers. 0 where the text is no grammar, or its grammar has no table: LRC_REPORT tells why. */
size_t lrc_table(const char *text, size_t length, uint32_t *out, size_t room);

/* The names of the tokens and then of the rules, in the order of their numbers in the table, each ended by a line feed, in bytes of
 * UTF-8. 0 where the text is no grammar. */
size_t lrc_names(const char *text, size_t length, char *out, size_t room);

#ifdef __cplusplus
}
#endif

#endif
