/*
 * stack BOARD..: runs the six calls of the library on every board, each on a stack that is painted before the call, and prints the most bytes
 * of stack that each of them has touched, with its return address and the arguments that are passed in memory.
 */
#include <stdio.h>
#include <string.h>
#include <ucontext.h>

#include "zuzgravel.h"

#define TASKS 64u
#define STACK (1u << 20)

static uint32_t board[16384];
static size_t words;
static uint32_t times[TASKS];
static uint32_t scratch[ZUZGRAVEL_SCRATCH_WORDS(TASKS)];
static uint32_t records[TASKS * ZUZGRAVEL_RECORD_WORDS];
static uint32_t order[TASKS]; /* the tasks ascending */
static size_t order_words;
static uint64_t parts[6];
static uint64_t answer[2];

static unsigned char stack[STACK] __attribute__((aligned(16)));
static unsigned char *frame; /* where the frame of the calling function starts */
static ucontext_t here, there;

static void figures(void)
{
    frame = __builtin_frame_address(0);
    zuzgravel_figures(board, words, records, TASKS * ZUZGRAVEL_RECORD_WORDS, answer);
}

static void overhead(void)
{
    frame = __builtin_frame_address(0);
    zuzgravel_overhead(board, words, words < 2 ? 0 : board[1], 1, answer);
}

static void weigh(void)
{
    frame = __builtin_frame_address(0);
    zuzgravel_weigh(board, words, times, TASKS, 1, answer);
}

static void analyse(void)
{
    frame = __builtin_frame_address(0);
    zuzgravel_analyse(board, words, times, TASKS, scratch, ZUZGRAVEL_SCRATCH_WORDS(TASKS), records, TASKS * ZUZGRAVEL_RECORD_WORDS,
                      answer);
}

static void analyse_in_order(void)
{
    frame = __builtin_frame_address(0);
    zuzgravel_analyse_in_order(board, words, times, TASKS, scratch, ZUZGRAVEL_SCRATCH_WORDS(TASKS), records,
                               TASKS * ZUZGRAVEL_RECORD_WORDS, order, order_words, answer);
}

static void make_up(void)
{
    frame = __builtin_frame_address(0);
    zuzgravel_make_up(board, words, times, TASKS, scratch, ZUZGRAVEL_SCRATCH_WORDS(TASKS), records, TASKS * ZUZGRAVEL_RECORD_WORDS,
                      words < 2 ? 0 : board[1], parts, answer);
}

/* The board of a file, and an order of the tasks that it claims to have. */
static int read_board(const char *path)
{
    FILE *file = fopen(path, "rb");
    if (!file) {
        perror(path);
        return 0;
    }
    words = fread(board, 4, 16384, file);
    fclose(file);
    order_words = words < 2 ? 0 : board[1] < TASKS ? board[1] : TASKS;
    for (uint32_t k = 0; k < TASKS; k++) {
        order[k] = k + 1;
    }
    return 1;
}

/* The bytes of stack that the call touches, of those that are not this paint. */
static size_t touched(void (*call)(void), unsigned char paint)
{
    memset(times, 0, sizeof times);
    memset(stack, paint, STACK);
    getcontext(&there);
    there.uc_stack.ss_sp = stack;
    there.uc_stack.ss_size = STACK;
    there.uc_link = &here;
    makecontext(&there, call, 0);
    swapcontext(&here, &there);
    size_t k = 0;
    while (stack[k] == paint) {
        k++;
    }
    return (size_t)(frame - &stack[k]);
}

int main(int argc, char **argv)
{
    enum { CALLS = 6 };
    static void (*const calls[CALLS])(void) = {figures, overhead, weigh, analyse, analyse_in_order, make_up};
    static const char *const names[CALLS] = {"figures", "overhead", "weigh", "analyse", "analyse_in_order", "make_up"};
    static const unsigned char paints[] = {0xa5, 0x5a};
    size_t most[CALLS] = {0};
    for (int k = 1; k < argc; k++) {
        if (!read_board(argv[k])) {
            return 2;
        }
        for (int call = 0; call < CALLS; call++) {
            for (int paint = 0; paint < 2; paint++) {
                size_t bytes = touched(calls[call], paints[paint]);
                most[call] = bytes > most[call] ? bytes : most[call];
            }
        }
    }
    for (int call = 0; call < CALLS; call++) {
        printf("zuzgravel_%s: %zu bytes of stack\n", names[call], most[call]);
    }
    return 0;
}
