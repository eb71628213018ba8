/*
 * A drive card in a bare loop: the shaft interrupts the processor, each interrupt gives one task one step of the card, and the loop never waits for a task.
 * Task 0 changes the pattern, task 1 moves the bar to where that pattern wants it; while they run the operator withdraws the pattern change. What the
 * card answers is printed as the program bench prints it, so that `./bench examples/firmware` prints the same (README.md, 'In a C program').
 */
#include <inttypes.h>
#include <stdint.h>
#include <stdio.h>

#include "lace_card.h"

/* 2 processes, 2 variables (pattern 7, bar 100), 2 programs, at most 1,000 steps */
static const char card_text[] = "card,2,2,2,1000\n"
                                "var,7\n"
                                "var,100\n"
                                /* program 0: the pattern becomes input 0; output 0 is the old one */
                                "sheet,4\n"
                                "ins,1,0,0,0\n"
                                "ins,3,1,0,0\n"
                                "ins,4,0,0,0\n"
                                "ins,11,0,1,0\n"
                                /* program 1: the bar moves by input 0; outputs are the bar and the pattern it moved under */
                                "sheet,7\n"
                                "ins,1,0,0,0\n"
                                "ins,3,1,1,0\n"
                                "ins,7,1,0,0\n"
                                "ins,4,1,1,0\n"
                                "ins,3,2,0,0\n"
                                "ins,11,0,1,0\n"
                                "ins,11,1,2,0\n";

enum { PATTERN, BAR, TASKS = 2, WEIGHT = 3 };

/* all the memory that the card takes: for two processes and weight 3 12 KB, known when this is compiled */
static uint64_t block[LACE_BLOCK_WORDS];
static uint64_t loan[LACE_LOAN_WORDS(TASKS, WEIGHT)];

/* the shaft: which task its next interrupts give a step */
static const char shaft[] = "0011111" "00000000000" "111";
static size_t angle;

static uint32_t shaft_interrupt(void)
{
    return (uint32_t)(shaft[angle++] - '0');
}

static void print_refusal(uint32_t status)
{
    printf("refused,%" PRIu32 "\n", status);
}

/* a request that is only taken or refused */
static void print_taken(const char *what, uint32_t number, uint32_t status)
{
    printf("%s,%" PRIu32 ",", what, number);
    if (status == LACE_TAKEN)
        printf("taken\n");
    else
        print_refusal(status);
}

static void print_variable(uint32_t variable)
{
    uint64_t value;
    uint32_t status = lace_read(block, LACE_BLOCK_WORDS, variable, &value, 1);
    printf("look,%" PRIu32 ",", variable);
    if (status == LACE_TAKEN)
        printf("%" PRIu64 "\n", value);
    else
        print_refusal(status);
}

static void step(uint32_t task)
{
    uint64_t out[LACE_STEP_WORDS];
    uint32_t status = lace_step(block, LACE_BLOCK_WORDS, loan, sizeof loan / sizeof *loan, task, out, LACE_STEP_WORDS);
    printf("step,%" PRIu32 ",", task);
    if (status != LACE_TAKEN) {
        print_refusal(status);
        return;
    }
    switch (out[LACE_KIND]) {
    case LACE_RUN:
        printf("run\n");
        break;
    case LACE_EXITED:
        printf("exited,%" PRIu64 "\n", out[LACE_OWN_STEPS]);
        break;
    default:
        printf("%s,%" PRIu64 ",%" PRIu64 ",%" PRIu64 ",%" PRIu64 ",%" PRIu64 ",%" PRIu64 "\n",
               out[LACE_KIND] == LACE_DONE ? "done" : "fault", out[LACE_GATE_NUMBER], out[LACE_OUTPUT], out[LACE_OUTPUT + 1],
               out[LACE_OUTPUT + 2], out[LACE_OUTPUT + 3], out[LACE_OWN_STEPS]);
    }
}

int main(void)
{
    uint64_t line = 0;
    uint32_t status = lace_open((const uint8_t *)card_text, sizeof card_text - 1, block, LACE_BLOCK_WORDS, &line, 1);
    if (status != LACE_TAKEN) {
        printf("card,refused,%" PRIu32 ",%" PRIu64 "\n", status, line);
        return 1;
    }
    if (lace_loan_words(block, LACE_BLOCK_WORDS) > sizeof loan / sizeof *loan)
        return 1; /* the card weighs more than WEIGHT; every step would be refused with LACE_TOO_SHORT */
    print_variable(PATTERN);
    print_variable(BAR);
    print_taken("call", 0, lace_call(block, LACE_BLOCK_WORDS, 0, 0, 8, 0, 0, 0));
    print_taken("call", 1, lace_call(block, LACE_BLOCK_WORDS, 1, 1, 5, 0, 0, 0));
    while (shaft[angle]) {
        if (angle == 7)
            print_taken("wish", 0, lace_request_exit(block, LACE_BLOCK_WORDS, 0));
        step(shaft_interrupt());
    }
    print_variable(PATTERN);
    print_variable(BAR);
    return 0;
}
