/*
 * The Lughtsavi engine and its diffs, for callers in C, C++ and Rust.
 *
 * Link target/staticlib/liblughtsavi.a (written by `tools/built library`; x86-64 Linux). It allocates nothing and keeps nothing
 * between calls: the whole state of a mainframe lies in four areas that the caller lends to each call. The code is proved to answer
 * and to leave in the lent memory exactly what document 01 says, for every content and every length of what is lent; the contracts
 * are in crates/lughtsavi/src/lib.rt.
 *
 * A slice is passed as two arguments: a pointer to its first element, and the number of its elements (words for uint32_t, not bytes).
 * The caller owes what a Rust caller owes:
 *   - the pointer is not null, also where the length is 0; it is aligned for its element, and that many elements can be read and,
 *     where it is not const, written;
 *   - memory that is not const overlaps no other slice of the same call, and no other thread uses it during the call.
 * A slice that has not the length named below is no error of the caller: the functions test it and refuse.
 */
#ifndef LUGHTSAVI_H
#define LUGHTSAVI_H

#include <stdbool.h>
#include <stddef.h>
#include <stdint.h>

#ifdef __cplusplus
extern "C" {
#endif

/* The lengths of the slices, in elements. */
#define LUGHTSAVI_CLOCKS 5000   /* uint8_t: vector clocks */
#define LUGHTSAVI_WORDS 4272    /* uint32_t: each processor's copies of the pages, then the twins, then the tallies, then the jobs' values */
#define LUGHTSAVI_RECORDS 17280 /* uint8_t: the change records */
#define LUGHTSAVI_MARKS 112     /* uint8_t: counts, holders, arrived and dirty marks, the lines of waiters, the queue's oldest place and jobs */
#define LUGHTSAVI_OPENING 8     /* uint8_t: 0, processors, pages, locks, 0, 0, 0, 0 */
#define LUGHTSAVI_ANSWER 4      /* uint32_t: refusal, value, count, words */
#define LUGHTSAVI_PAGE 32       /* uint32_t: the words of a page */
#define LUGHTSAVI_DIFF 131      /* uint8_t: no diff is longer */

/* What lughtsavi_diff_write and lughtsavi_diff_apply add to a refusal. */
#define LUGHTSAVI_REFUSED 256

/*
 * The kinds of step. The object is a word (read, write), a lock (acquire, release) or a tally (0 to 15), else 0; only a write, an add to a
 * tally and an enqueue have a value, else 0.
 * An acquire of a lock that another processor holds is accepted: the processor waits, and has no other step accepted until a release gives it
 * the lock. A processor that holds a lock must release it before it arrives.
 * One queue holds up to 32 jobs: an enqueue adds its value with what the processor knows, a dequeue answers the oldest job's value and
 * learns what its enqueue knew.
 */
enum lughtsavi_kind {
    LUGHTSAVI_READ = 1,
    LUGHTSAVI_WRITE = 2,
    LUGHTSAVI_ACQUIRE = 3,
    LUGHTSAVI_RELEASE = 4,
    LUGHTSAVI_ARRIVE = 5,
    LUGHTSAVI_WANT_COLLECTION = 6,
    LUGHTSAVI_TALLY_ADD = 8,
    LUGHTSAVI_TALLY_READ = 9,
    LUGHTSAVI_ENQUEUE = 10,
    LUGHTSAVI_DEQUEUE = 11
};

/* The refusals, by the numbers of documents 01 and 02. Where several apply, the first that a call meets is given; 17 to 20 stand behind 6. */
enum lughtsavi_refusal {
    LUGHTSAVI_ACCEPTED = 0,
    LUGHTSAVI_OUT_OF_ORDER = 1,     /* the areas are not in order; for an opening: an area of a wrong size;
                                       for a step also: an answer that has not four words */
    LUGHTSAVI_BAD_OPENING = 2,      /* not eight bytes, first byte not 0, a count out of range (processors 1 to 8, pages 1 to 8,
                                       locks 1 to 16), or bytes 4 to 7 not all 0 */
    LUGHTSAVI_UNKNOWN_KIND = 3,     /* kind not 1 to 6 or 8 to 11 */
    LUGHTSAVI_NO_PROCESSOR = 4,     /* processor absent */
    LUGHTSAVI_NO_OBJECT = 5,        /* word, lock or tally absent, or an unused field not 0 */
    LUGHTSAVI_HAS_ARRIVED = 6,      /* the processor has arrived, and the round is not complete */
    LUGHTSAVI_LOCK_HELD = 7,        /* acquire: this processor is the holder */
    LUGHTSAVI_NOT_HOLDER = 8,       /* release: this processor is not the holder */
    LUGHTSAVI_NO_INTERVAL_LEFT = 9, /* write to a clean page: the processor's own entry is 63 */
    LUGHTSAVI_NO_RECORD_LEFT = 10,  /* write to a clean page: records plus dirty pages are 128 */
    LUGHTSAVI_DIFF_LENGTH = 11,     /* no bytes, more than 16 pairs, bytes end within the pairs, or the total length is not exact */
    LUGHTSAVI_DIFF_PAIR = 12,       /* a pair breaks its rule */
    LUGHTSAVI_DIFF_ROOM = 13,       /* the destination is shorter than the diff */
    LUGHTSAVI_PAGE_LENGTH = 14,     /* a page lent is not 32 words */
    LUGHTSAVI_WAITS = 17,           /* the processor waits for a lock */
    LUGHTSAVI_HOLDS_LOCK = 18,      /* arrive: the processor holds a lock */
    LUGHTSAVI_QUEUE_FULL = 19,      /* enqueue: 32 jobs wait */
    LUGHTSAVI_QUEUE_EMPTY = 20      /* dequeue: no job waits */
};

/*
 * Opens a mainframe of the processors, pages and locks that the opening names.
 * Answers 0, and the areas hold exactly the opened state, whatever they held before.
 * Refuses by 1, then 2; the areas are then left untouched.
 */
uint8_t lughtsavi_open(
    const uint8_t *opening, size_t opening_len,
    uint8_t *clocks, size_t clocks_len,
    uint32_t *words, size_t words_len,
    uint8_t *records, size_t records_len,
    uint8_t *marks, size_t marks_len);

/*
 * Answers whether the areas have their lengths and hold a state in order: whether a step on them would not be refused by 1.
 * It refuses nothing and writes nothing. An opening and every step leave areas in order, so a caller who alone writes
 * them need not ask.
 */
bool lughtsavi_in_order(
    const uint8_t *clocks, size_t clocks_len,
    const uint32_t *words, size_t words_len,
    const uint8_t *records, size_t records_len,
    const uint8_t *marks, size_t marks_len);

/*
 * One step of a processor. Processors are numbered from 1; words, locks and tallies from 0.
 * Answers 0 where the step was done: `answer` is 0, value, count, words, and the areas hold the state after the step. Only a read, of a word
 * or of a tally, and a dequeue have a value other than 0; the count is the change records that the step applied to copies, the words are those
 * that these records set, all the words of each, a word that had its value already too.
 * Refuses by 1, then 3 to 6, 17 to 20, 7 to 10: it returns the refusal, `answer` is refusal, 0, 0, 0, and the areas are left untouched.
 * Where `answer` has not four words it returns 1, and `answer` too is left untouched.
 */
uint8_t lughtsavi_step(
    uint32_t kind, uint32_t processor, uint32_t object, uint32_t value,
    uint32_t *answer, size_t answer_len,
    uint8_t *clocks, size_t clocks_len,
    uint32_t *words, size_t words_len,
    uint8_t *records, size_t records_len,
    uint8_t *marks, size_t marks_len);

/*
 * Runs an opening and the step records behind it, in one call. A record is eight bytes: kind, processor, object (two bytes, low first), value
 * (four, low first); the opening is 0, processors, pages, locks and four zeros.
 * For each record four words are written into `answers`: refusal or 0, value, count, words.
 * Answers how many records were run, the opening among them: as many whole records as `bytes` has and as `answers` has room for; bytes and
 * words beyond these are not looked at. Where the opening is refused (1 or 2) it alone is answered, and the areas are left untouched.
 * A refused step leaves the areas untouched, and the run goes on.
 */
size_t lughtsavi_run(
    const uint8_t *bytes, size_t bytes_len,
    uint32_t *answers, size_t answers_len,
    uint8_t *clocks, size_t clocks_len,
    uint32_t *words, size_t words_len,
    uint8_t *records, size_t records_len,
    uint8_t *marks, size_t marks_len);

/*
 * Writes what turns the page `old_page` into the page `new_page` as a diff, from the first byte of `out` on.
 * Answers its length in bytes, 1 to 131; the bytes of `out` beyond it are left untouched.
 * Refuses by 14, then 13: it answers 256 + the refusal, and `out` is left untouched. The pages are only read.
 */
uint32_t lughtsavi_diff_write(
    const uint32_t *old_page, size_t old_page_len,
    const uint32_t *new_page, size_t new_page_len,
    uint8_t *out, size_t out_len);

/*
 * Answers whether the bytes are exactly one diff: 0, or the refusal 11 or 12. It writes nothing.
 */
uint8_t lughtsavi_diff_check(const uint8_t *bytes, size_t bytes_len);

/*
 * Carries a diff out on a page.
 * Answers how many words it set, 0 to 32, those of its runs, also where a word had its value already; the page's other words are left
 * untouched.
 * Refuses by 14, then 11 or 12: it answers 256 + the refusal, and the page is left untouched. The bytes are only read.
 */
uint32_t lughtsavi_diff_apply(
    const uint8_t *bytes, size_t bytes_len,
    uint32_t *page, size_t page_len);

#ifdef __cplusplus
}
#endif

#endif
