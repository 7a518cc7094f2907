/*
 * watchdogs BOARD: analyses the board in the file BOARD and prints the time that the watchdog of each task has to allow. Where a task is
 * late, it prints what the cycles of that task are spent on, so that a fitter sees what to move.
 * Built from the repository's top: cc -Iinclude examples/watchdogs.c target/staticlib/libcapi.a -o watchdogs
 */
#include <stdio.h>

#include "zuzgravel.h"

#define TASKS 64u
#define WORDS 16384u

static uint32_t board[WORDS];
static uint32_t times[TASKS];
static uint32_t scratch[ZUZGRAVEL_SCRATCH_WORDS(TASKS)];
static uint32_t records[TASKS * ZUZGRAVEL_RECORD_WORDS];

/* The six parts of a time, in their order. */
static const char *const parts_in_words[6] = {
    "own work", "work of higher tasks of its core", "accesses of its core", "accesses of other cores", "one blocking access", "refreshes",
};

/* Reads at most one byte more than the largest board has; returns their number. The words are little-endian. */
static size_t read_board(FILE *file)
{
    static unsigned char bytes[4 * WORDS + 1];
    size_t count = fread(bytes, 1, sizeof bytes, file);
    for (size_t k = 0; k < count / 4; k++) {
        const unsigned char *at = &bytes[4 * k];
        board[k] = (uint32_t)at[0] | (uint32_t)at[1] << 8 | (uint32_t)at[2] << 16 | (uint32_t)at[3] << 24;
    }
    return count;
}

static int refused(uint64_t row, uint64_t place)
{
    printf("the board is refused: row %llu, place %llu\n", (unsigned long long)row, (unsigned long long)place);
    return 1;
}

/* How the sum of a late task is made up: a line for each part, of which the largest is marked. */
static void print_parts(size_t board_words, uint64_t task)
{
    uint64_t parts[6], answer[2];
    uint32_t code = zuzgravel_make_up(board, board_words, times, TASKS, scratch, ZUZGRAVEL_SCRATCH_WORDS(TASKS), records,
                                      TASKS * ZUZGRAVEL_RECORD_WORDS, (size_t)task, parts, answer);
    for (unsigned k = 0; code == ZUZGRAVEL_VALUE && k < 6; k++) {
        printf("  %s %llu cycles%s\n", parts_in_words[k], (unsigned long long)parts[k], answer[0] == k + 1 ? ", the most" : "");
    }
}

int main(int argc, char **argv)
{
    if (argc != 2) {
        fprintf(stderr, "usage: watchdogs BOARD\n");
        return 2;
    }
    FILE *file = fopen(argv[1], "rb");
    if (!file) {
        perror(argv[1]);
        return 2;
    }
    size_t bytes = read_board(file);
    fclose(file);
    /* row 15 of the refusal table is about bytes, so it is for whoever reads them */
    if (bytes > 4 * WORDS || bytes % 4 != 0) {
        return refused(15, bytes);
    }

    uint64_t answer[2];
    uint32_t code = zuzgravel_analyse(board, bytes / 4, times, TASKS, scratch, ZUZGRAVEL_SCRATCH_WORDS(TASKS), records,
                                      TASKS * ZUZGRAVEL_RECORD_WORDS, answer);
    switch (code) {
    case ZUZGRAVEL_VALUE:
        for (uint32_t k = 0; k < board[1]; k++) {
            const uint32_t *record = &records[k * ZUZGRAVEL_RECORD_WORDS];
            printf("task %u on core %u: watchdog %u cycles (deadline %u)\n", k + 1, record[0], times[k], record[2]);
        }
        return 0;
    case ZUZGRAVEL_LATE:
        printf("task %llu is late\n", (unsigned long long)answer[0]);
        print_parts(bytes / 4, answer[0]);
        return 1;
    case ZUZGRAVEL_SPENT:
        printf("the pass limit is spent\n");
        return 1;
    default:
        return refused(answer[0], answer[1]);
    }
}
