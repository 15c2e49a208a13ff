/* The chip catalogue for programs in other languages: exchanged texts, reports and call logs, as bytes in and bytes out, and tables of election
 * answers.
 *
 * `.ci/archive c_library_c` proves the library and writes target/staticlib/libc_library.a, which links into x86-64 programs:
 *
 *     gcc -Iinclude program.c target/staticlib/libc_library.a -o program
 *
 * What every function here does and needs:
 * - It answers every input. Text and log may be any bytes of any size, with or without an end of line, and no byte of them is changed.
 * - A buffer is lent by a pointer and its size in bytes, a table by a pointer and its number of rows. The pointer must be to that many, and it
 *   must not be NULL, also where there are none. Buffers that are written (`out`, `work`) overlap no other buffer of the same call.
 * - Refused, it leaves `out` as it was. Accepted, it changes the first `size` bytes of `out` and no other.
 * - It keeps nothing between calls, allocates nothing and uses no global state, so that threads may call it at once.
 * - It needs up to 600 KiB of stack.
 *
 * The contracts are proved: crates/c_library/src/lib.rt states them; crates/c_library/specs/Replies.antt and crates/unity_table/specs/Unity.antt define
 * what they speak of.
 */
#ifndef CATALOGUE_H
#define CATALOGUE_H

#include <stddef.h>
#include <stdint.h>

#ifdef __cplusplus
extern "C" {
#endif

/* number  0: accepted. Any other is the number of the ground for the refusal (documents 01 and 02); 12: what is to be written does not fit.
 * line    of a refused text the line of its fault, counted from 1 (for 8, not sound, how many lines it has); else 0
 * size    accepted, how many bytes were written at the start of `out`; else 0 */
struct catalogue_reply {
    uint32_t number;
    size_t line;
    size_t size;
};

/* Whether an exchanged text is without fault. Nothing is written. */
struct catalogue_reply catalogue_check(const uint8_t *text, size_t text_size);

/* The report of an exchanged text: each edit with must, never, settled and its page (what the program `shelf` prints for it).
 * A report has at most CATALOGUE_REPORT_SIZE bytes. */
struct catalogue_reply catalogue_report(const uint8_t *text, size_t text_size, uint8_t *out, size_t out_size);

/* An exchanged text read and written again: the same bytes. A text without fault has at most CATALOGUE_TEXT_SIZE bytes. */
struct catalogue_reply catalogue_rewrite(const uint8_t *text, size_t text_size, uint8_t *out, size_t out_size);

/* Why an edit of an exchanged text must stand, or can never stand: the line of the reason, as edit=257 why=must chain=257,513,0 (docs/CALL-LOG.md,
 * do=why). A faulty text is refused with its line. Else, with line 0, the first of: 2, no edit has such a name; 5, the text has no edit of this name;
 * 12; 15, the edit is neither. A reason's line has at most CATALOGUE_REASON_SIZE bytes. */
struct catalogue_reply catalogue_why(const uint8_t *text, size_t text_size, uint32_t edit, uint8_t *out, size_t out_size);

/* A call log (docs/CALL-LOG.md) run on one bench from empty: the answers to all its lines (what the program `replay` prints for it).
 * A line that is refused is answered as such and is no ground to refuse the log: the one ground is 12. The answers are first written to
 * `work`, up to the first line, record's text or report that does not fit. Both `work` and `out` need room for all answers; how much that is,
 * only the run tells, so on 12 lend more and call again. */
struct catalogue_reply catalogue_replay(const uint8_t *log, size_t log_size, uint8_t *work, size_t work_size, uint8_t *out, size_t out_size);

/* A bench between calls is kept by its log: the answers to the lines of `log` alone, on the bench that the lines of `kept` made (what the program
 * `replay` prints for `log` with `kept` as its file). To go on, append `log` to what was kept. `kept` ends with the end of a line, or is empty;
 * where it does not, its last line counts as a line of its own.
 * `work` needs room for the answers to `log` alone. It costs what running `kept` costs: from 0.1 microseconds a line (turns in a row) to 10
 * (adds on a bench at the limits). */
struct catalogue_reply catalogue_continue(const uint8_t *kept, size_t kept_size, const uint8_t *log, size_t log_size, uint8_t *work,
                                          size_t work_size, uint8_t *out, size_t out_size);

/* A fraction of two whole numbers without a common divisor. */
struct catalogue_share {
    uint64_t numerator;
    uint64_t denominator;
};

/* number    0: accepted. 2, 3 or 17: refused, and every other part but the row is 0
 * row       of a refusal the faulty row, counted from 1; else 0
 * mean      of the shares (greatest group over total); least and greatest are shares of the table. Of no shares each is 0/1
 * won       how many elections have 2 * greatest group > total
 * empty     how many have total 0: they are counted here and nowhere else */
struct catalogue_unity_reply {
    uint32_t number;
    size_t row;
    struct catalogue_share mean, least, greatest;
    size_t won;
    size_t empty;
};

/* How united the benches are, from the answers of up to CATALOGUE_ANSWERS elections: each row is the greatest group's weight, the silent weight and
 * the total. The first faulty row decides: 2 where greatest group and silent weight together exceed the total or the total exceeds 524,280; 3 for a
 * row too many; 17 where the shares' least common denominator, the numerator of their sum over it or, at the last row, the mean's denominator does
 * not fit 64 bits. */
struct catalogue_unity_reply catalogue_unity(const uint32_t (*answers)[3], size_t count);

#define CATALOGUE_ANSWERS 200

/* 639 lines of at most 101 bytes; a line of the report for each of 127 edits, and one more; a reason of at most 128 names of four digits */
#define CATALOGUE_TEXT_SIZE 64539
#define CATALOGUE_REPORT_SIZE 8192
#define CATALOGUE_REASON_SIZE 671

#ifdef __cplusplus
}
#endif

#endif
