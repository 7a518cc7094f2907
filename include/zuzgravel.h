/*
 * Zuzgravel: worst-case response times of the tasks of a multicore controller, as upper bounds: no task takes longer from its release
 * on, as long as every core runs the board's tasks as recorded and none of them is due more often than its period or released later
 * than its jitter after it is due.
 *
 * The six calls of the proved library (`harness/library` writes target/staticlib/libcapi.a). Each call takes every input: it
 * tests what it is given and refuses with the number and the place of the refusal table (README.md). No call keeps a pointer,
 * allocates, or fails to return.
 *
 * A board is a slice of 32-bit words, as README.md describes it. A buffer is a pointer and a length in words; a pointer must be
 * valid for that many words, aligned and not null, even where the length is 0, and no written buffer may overlap another. The same
 * goes for `answer`, which has two words, and for `parts`, which has six.
 *
 * An answer is a code and two numbers. A C function gives back one number, so the code is what a call returns, and `answer` is where
 * the two numbers go: two words of the caller's. Every call writes both of them, a refused one too (a number that is not named below
 * is 0); a refused call writes to no other buffer.
 *
 *   code                    answer[0]                        answer[1]
 *   ZUZGRAVEL_VALUE    0    the value; of analyse and analyse_in_order: passes; of make_up: the reason, 1 to 6
 *   ZUZGRAVEL_LATE     1    the late task, from 1            passes
 *   ZUZGRAVEL_SPENT    2
 *   ZUZGRAVEL_REFUSED  3    the row of the refusal table     the place
 *
 * Stack that a call needs, on x86-64: 56 KiB for zuzgravel_figures, zuzgravel_analyse, zuzgravel_analyse_in_order and
 * zuzgravel_make_up, 72 KiB for zuzgravel_overhead and zuzgravel_weigh. `harness/stack` measures it; some 3 KiB of each are for the
 * dynamic linker, which may have to bind memset and memcpy, the only functions of C that are called.
 */
#ifndef ZUZGRAVEL_H
#define ZUZGRAVEL_H

#include <stddef.h>
#include <stdint.h>

#ifdef __cplusplus
extern "C" {
#endif

#define ZUZGRAVEL_VALUE 0u
#define ZUZGRAVEL_LATE 1u
#define ZUZGRAVEL_SPENT 2u
#define ZUZGRAVEL_REFUSED 3u

/*
 * Words of one record of the figures table, in this order: core, period T, deadline D, PD, MD, then the evicting cache blocks as eight
 * words a cache, by their sets. Set s, of any number of ways, is bit s mod 32 (bit 0 lowest) of word 5 + s / 32 for the code cache, and
 * of word 13 + s / 32 for the data cache. Where the board has one cache for both (memory 2), its sets are in words 5 to 12, and words
 * 13 to 20 are 0; without a cache all sixteen are.
 */
#define ZUZGRAVEL_RECORD_WORDS 21u

/* Words of scratch that zuzgravel_analyse, zuzgravel_analyse_in_order and zuzgravel_make_up ask for with n tasks. */
#define ZUZGRAVEL_SCRATCH_WORDS(n) ((size_t)(n) * (size_t)(n) + 4u * (size_t)(n))

/*
 * Figures: fills the first n records of `records` with the figures of the n tasks; later words stay as they were.
 * The value is n. Refuses with rows 1 to 9, and 13 where `records` has room for fewer than n records; its place is that room in
 * records, record_words / ZUZGRAVEL_RECORD_WORDS.
 */
uint32_t zuzgravel_figures(const uint32_t *board, size_t board_words, uint32_t *records, size_t record_words,
                           uint64_t answer[2]);

/*
 * Overhead: the value is the pre-emption overhead of task j on the tasks down to task i, both numbered from 1: the most useful cache
 * blocks that a task k on the core of j, j < k <= i, can lose at one point of a trace, in each set at most as many as it has ways.
 * Refuses with rows 1 to 9, and 10 for i, then j.
 */
uint32_t zuzgravel_overhead(const uint32_t *board, size_t board_words, size_t i, size_t j, uint64_t answer[2]);

/*
 * Weigh: the value is the sum of task i, numbered from 1, at these times.
 * Refuses with rows 1 to 9, 10 for i, 11 where there are fewer than n times, and 14 at the first time above D - J + 1, its deadline
 * less its jitter and one more.
 */
uint32_t zuzgravel_weigh(const uint32_t *board, size_t board_words, const uint32_t *times, size_t times_words, size_t i,
                         uint64_t answer[2]);

/*
 * Analyse: ZUZGRAVEL_VALUE puts the time of each task, a bound on its longest response time, into the first n words of `times`;
 * later words stay as they were, and so does the whole of `times` with every other code. Unless refused, the first n records of
 * `records` are filled as by zuzgravel_figures, and `scratch` ends with free contents.
 * Refuses with rows 1 to 9, 11 (times) and 12 (scratch), whose places are the lengths found, in words, and 13 (records), whose place is
 * the room in records, record_words / ZUZGRAVEL_RECORD_WORDS.
 */
uint32_t zuzgravel_analyse(const uint32_t *board, size_t board_words, uint32_t *times, size_t times_words, uint32_t *scratch,
                           size_t scratch_words, uint32_t *records, size_t record_words, uint64_t answer[2]);

/*
 * Analyse in order: as zuzgravel_analyse, by passes that visit the tasks in the order of `order`, a list of the n task numbers, from 1;
 * each task uses the newest times. By these passes it is spent, late or has times, and leaves the buffers as zuzgravel_analyse does by
 * its own. The passes needed are never more than by zuzgravel_analyse; where neither is spent, the times, or the late task, are the same.
 * Refuses as zuzgravel_analyse does, then with row 16: where order_words is not n, whose place is order_words, and at the first number
 * that is outside 1..n or was named before, whose place is its index, from 0.
 */
uint32_t zuzgravel_analyse_in_order(const uint32_t *board, size_t board_words, uint32_t *times, size_t times_words, uint32_t *scratch,
                                    size_t scratch_words, uint32_t *records, size_t record_words, const uint32_t *order,
                                    size_t order_words, uint64_t answer[2]);

/*
 * Make up: how the time of a task, numbered from 1, is made up. Six numbers of cycles go to `parts`, at the times at which the passes of
 * zuzgravel_analyse end: the task's own work; the work of the higher tasks of its core; the bus accesses of its core, its own among
 * them; the accesses from other cores, or their slots; the one access that blocks it; refreshes. They add up to the task's time where
 * the board has times, and to more than D - J, its deadline less its jitter, where the task is late. ZUZGRAVEL_VALUE is the code of
 * both; the value, the reason, is the number of the largest, from 1, and of equals that of the earliest. A board that is late gives the
 * numbers of every task, its other tasks too. The code is ZUZGRAVEL_SPENT where that of zuzgravel_analyse is, and never
 * ZUZGRAVEL_LATE; with it, and where the call is refused, the six words of `parts` stay as they were. `times`, `scratch` and `records`
 * are left as by zuzgravel_analyse: `times` is filled where no task of the board is late, and else stays as it was.
 * Refuses with rows 1 to 9, 10 for the task, 11 (times), 12 (scratch) and 13 (records), with the places of zuzgravel_analyse.
 */
uint32_t zuzgravel_make_up(const uint32_t *board, size_t board_words, uint32_t *times, size_t times_words, uint32_t *scratch,
                           size_t scratch_words, uint32_t *records, size_t record_words, size_t task, uint64_t parts[6],
                           uint64_t answer[2]);

#ifdef __cplusplus
}
#endif

#endif
