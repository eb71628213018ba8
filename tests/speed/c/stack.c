/*
 * How many bytes of stack each function of the header was seen to take at most: every call runs on a stack that is painted before, on the longest card, of
 * which one program notes eight records, under random steps.
 */
#define _GNU_SOURCE
#include <pthread.h>
#include <stdint.h>
#include <stdio.h>
#include <stdlib.h>
#include <string.h>
#include <sys/mman.h>

#include "lace_card.h"

enum { STACK = 1 << 16, PAINT = 0x5c, SKIPPED = 128 };

static uint64_t block[LACE_BLOCK_WORDS], loan[LACE_LOAN_WORDS_MAX], out[LACE_STEP_WORDS], report[LACE_REPORT_WORDS];
static char text[LACE_TEXT_BYTES];
static uint8_t written[LACE_WRITTEN_BYTES];
static size_t length;
static uint32_t process;
static const char *const program = "sheet,4\nins,1,0,0,0\nins,3,1,0,0\nins,4,0,0,0\nins,11,0,1,0\n";

static void open_card(void) { lace_open((const uint8_t *)text, length, block, LACE_BLOCK_WORDS, out, 1); }
static void call(void) { lace_call(block, LACE_BLOCK_WORDS, process, 0, 9, 8, 7, 6); }
static void request_exit(void) { lace_request_exit(block, LACE_BLOCK_WORDS, process); }
static void step(void) { lace_step(block, LACE_BLOCK_WORDS, loan, LACE_LOAN_WORDS_MAX, process, out, LACE_STEP_WORDS); }
static void trace(void) { lace_trace(block, LACE_BLOCK_WORDS, loan, LACE_LOAN_WORDS_MAX, process, out, LACE_STEP_WORDS, report, LACE_REPORT_WORDS); }
static void read_variable(void) { lace_read(block, LACE_BLOCK_WORDS, 0, out, 1); }
static void change(void) { lace_change(block, LACE_BLOCK_WORDS, 0, 1000000, (const uint8_t *)program, strlen(program), out, 1); }
static void write_text(void) { lace_write(block, LACE_BLOCK_WORDS, written, LACE_WRITTEN_BYTES, out, 1); }

/* the same of machine 0, whose block and loan these are */
static uint64_t allowance[LACE_ALLOWANCE_WORDS];
static const uint64_t terms[LACE_TERM_WORDS] = { LACE_TURN_STEPS, LACE_TURN_STEPS };
static void open_machines(void) { lace_machines_open(allowance, LACE_ALLOWANCE_WORDS, 1, LACE_TURN_STEPS, terms, LACE_TERM_WORDS); }
static void open_its_card(void) { lace_machines_open_card(block, LACE_BLOCK_WORDS, 0, (const uint8_t *)text, length, out, 1); }
static void turn(void) { lace_machines_turn(allowance, LACE_ALLOWANCE_WORDS); }
static void call_it(void) { lace_machines_call(allowance, LACE_ALLOWANCE_WORDS, block, LACE_BLOCK_WORDS, 0, process, 0, 9, 8, 7, 6); }
static void step_it(void)
{
    lace_machines_step(allowance, LACE_ALLOWANCE_WORDS, block, LACE_BLOCK_WORDS, loan, LACE_LOAN_WORDS_MAX, LACE_LOAN_WORDS_MAX, 0, process, out,
                       LACE_STEP_WORDS);
}
static void trace_it(void)
{
    lace_machines_trace(allowance, LACE_ALLOWANCE_WORDS, block, LACE_BLOCK_WORDS, loan, LACE_LOAN_WORDS_MAX, LACE_LOAN_WORDS_MAX, 0, process, out,
                        LACE_STEP_WORDS, report, LACE_REPORT_WORDS);
}
static void change_it(void)
{
    lace_machines_change(allowance, LACE_ALLOWANCE_WORDS, block, LACE_BLOCK_WORDS, 0, 0, 1000000, (const uint8_t *)program, strlen(program), out, 1);
}

static uint8_t *stack;
static void (*function)(void);
static size_t bytes;

/* paints what is left of its stack, but for some bytes that painting itself may use, calls the function and looks how far it reached */
static void *run(void *unused)
{
    volatile uint8_t *top = __builtin_frame_address(0);
    size_t k = 0;
    for (volatile uint8_t *at = stack; at < top - SKIPPED; at++)
        *at = PAINT;
    function();
    while (stack + k < (uint8_t *)top - SKIPPED && stack[k] == PAINT)
        k++;
    bytes = (size_t)((uint8_t *)top - stack) - k;
    return unused;
}

/* bytes of stack of a call, with those of the call itself; SKIPPED where it takes no more than that */
static size_t used(void (*what)(void))
{
    pthread_attr_t attributes;
    pthread_t thread;
    if (!stack)
        stack = mmap(NULL, STACK, PROT_READ | PROT_WRITE, MAP_PRIVATE | MAP_ANONYMOUS, -1, 0);
    function = what;
    pthread_attr_init(&attributes);
    pthread_attr_setstack(&attributes, stack, STACK);
    if (stack == MAP_FAILED || pthread_create(&thread, &attributes, run, NULL) != 0)
        exit(1);
    pthread_join(thread, NULL);
    return bytes;
}

static size_t most(size_t a, size_t b) { return a > b ? a : b; }

static void machines(void)
{
    size_t opens = used(open_machines), cards = used(open_its_card), turns = 0, calls = 0, steps = 0, traces = 0;
    for (int k = 0; k < 3000; k++) {
        process = (uint32_t)rand() % 8;
        calls = most(calls, used(call_it));
        if (k % 2)
            steps = most(steps, used(step_it));
        else
            traces = most(traces, used(trace_it));
        if (k % 50 == 0)
            turns = most(turns, used(turn));
    }
    printf("of machines: open %zu, card %zu, turn %zu, call %zu, step %zu, trace %zu, change %zu\n", opens, cards, turns, calls, steps, traces,
           used(change_it));
}

int main(void)
{
    size_t steps = 0, traces = 0, opens, calls = 0, exits = 0, reads = 0, changes = 0, writes;
    length = (size_t)sprintf(text, "card,8,64,8,1000000000000000000\n");
    for (int k = 0; k < 64; k++)
        length += (size_t)sprintf(text + length, "var,4294967295\n");
    for (int k = 0; k < 8; k++) {
        length += (size_t)sprintf(text + length, "sheet,32\n");
        for (int j = 0; j < 32; j++)
            length += (size_t)sprintf(text + length, k == 0 && j < 16 ? "ins,%d,%d,%d,0\n" : "ins,2,3,4294967295,0\n", j % 2 ? 4 : 3,
                                      j % 2 ? j % 16 / 2 : 0, j % 2 ? 0 : j % 16 / 2);
    }
    opens = used(open_card);
    writes = used(write_text);
    for (int k = 0; k < 3000; k++) {
        process = (uint32_t)rand() % 8;
        calls = most(calls, used(call));
        if (k % 50 == 0)
            exits = most(exits, used(request_exit));
        if (k % 2)
            steps = most(steps, used(step));
        else
            traces = most(traces, used(trace));
    }
    reads = used(read_variable);
    changes = used(change);
    printf("bytes of stack: open %zu, call %zu, exit request %zu, step %zu, trace %zu, read %zu, change %zu, write %zu\n", opens,
           calls, exits, steps, traces, reads, changes, writes);
    machines();
    return 0;
}
