/*
 * The numbers of the header, held to what the library does: sizes beside the proved ones, each status provoked by its own name, each place of `out` and of
 * `report` by a value that stands nowhere else. A number that moves on one side alone makes this fail. Prints a line for each check that does not
 * hold, and how many were made.
 */
#include <stdint.h>
#include <stdio.h>
#include <string.h>

#include "lace_card.h"

#define SIZE(x) (sizeof(x) / sizeof *(x))

static uint64_t block[LACE_BLOCK_WORDS];
static uint64_t loan[LACE_LOAN_WORDS_MAX];
static uint64_t out[LACE_STEP_WORDS];
static uint64_t report[LACE_REPORT_WORDS];
static char text[LACE_TEXT_BYTES + 2];
static int checks, failures;

static void same(const char *what, uint64_t found, uint64_t expected)
{
    checks++;
    if (found != expected) {
        printf("%s is %llu, not %llu\n", what, (unsigned long long)found, (unsigned long long)expected);
        failures++;
    }
}

static uint32_t open_text(const char *card)
{
    return lace_open((const uint8_t *)card, strlen(card), block, LACE_BLOCK_WORDS, out, 1);
}

static uint32_t step(uint32_t process)
{
    return lace_step(block, LACE_BLOCK_WORDS, loan, SIZE(loan), process, out, SIZE(out));
}

static uint32_t call(uint32_t process, uint32_t program, uint32_t input)
{
    return lace_call(block, LACE_BLOCK_WORDS, process, program, input, 0, 0, 0);
}

static uint32_t change(uint64_t from, const char *lines)
{
    return lace_change(block, LACE_BLOCK_WORDS, 0, from, (const uint8_t *)lines, strlen(lines), out, 1);
}

static void sizes(void)
{
    same("lace_block_words", lace_block_words(), LACE_BLOCK_WORDS);
    for (uint32_t p = 0; p < 20; p++)
        for (uint32_t w = 0; w < 70; w++) {
            same("lace_loan_size", lace_loan_size(p, w), lace_loan_words_for(p, w));
            if (p <= LACE_PROCESSES && w <= LACE_WEIGHT)
                same("LACE_LOAN_WORDS", lace_loan_size(p, w), LACE_LOAN_WORDS(p, w));
        }
    same("lace_loan_size of the largest numbers", lace_loan_size(UINT32_MAX, UINT32_MAX), 0);
    same("LACE_LOAN_WORDS_MAX", LACE_LOAN_WORDS_MAX, lace_loan_size(LACE_PROCESSES, LACE_WEIGHT));
    same("lace_wait_for(1, 0)", lace_wait_for(1, 0), 24);
    same("lace_wait_for(8, 32)", lace_wait_for(LACE_PROCESSES, LACE_WEIGHT), 670);
    same("lace_wait_for past the processes", lace_wait_for(LACE_PROCESSES + 1, 0), 0);
    same("lace_wait_for past the weight", lace_wait_for(1, LACE_WEIGHT + 1), 0);
    same("lace_wait_for of 257", lace_wait_for(257, 0), 0);
    same("lace_wait_for of 2^32 - 1", lace_wait_for(1, UINT32_MAX), 0);
}

/* a card of so many processes, variables and programs, each of one line with code 12 */
static uint32_t open_counts(int p, int n, int s)
{
    int at = sprintf(text, "card,%d,%d,%d,5\n", p, n, s);
    for (int k = 0; k < n; k++)
        at += sprintf(text + at, "var,0\n");
    for (int k = 0; k < s; k++)
        at += sprintf(text + at, "sheet,1\nins,12,0,0,0\n");
    return open_text(text);
}

/* a card with one program of so many loads */
static uint32_t open_weight(int w)
{
    int at = sprintf(text, "card,%d,1,1,5\nvar,0\nsheet,%d\n", LACE_PROCESSES, w < 33 ? w : 32);
    for (int k = 0; k < w && k < 32; k++)
        at += sprintf(text + at, w > 32 && k == 0 ? "ins,13,0,0,0\n" : "ins,3,0,0,0\n");
    return open_text(text);
}

static void limits(void)
{
    size_t length;
    same("the most processes", open_counts(LACE_PROCESSES, 1, 1), LACE_TAKEN);
    same("one more", open_counts(LACE_PROCESSES + 1, 1, 1), LACE_NUMBER_OUT_OF_RANGE);
    same("the most variables", open_counts(1, LACE_VARIABLES, 1), LACE_TAKEN);
    same("one more", open_counts(1, LACE_VARIABLES + 1, 1), LACE_NUMBER_OUT_OF_RANGE);
    same("the most programs", open_counts(1, 1, LACE_PROGRAMS), LACE_TAKEN);
    same("one more", open_counts(1, 1, LACE_PROGRAMS + 1), LACE_NUMBER_OUT_OF_RANGE);
    same("the greatest weight", open_weight(LACE_WEIGHT), LACE_TAKEN);
    same("its loan", lace_loan_words(block, LACE_BLOCK_WORDS), LACE_LOAN_WORDS_MAX);
    same("its wait", lace_wait(block, LACE_BLOCK_WORDS), 670);
    same("a greater one", open_weight(LACE_WEIGHT + 1), LACE_TOO_HEAVY);
    same("the line of that", out[LACE_LINE], 35);
    memset(text, 'x', sizeof text);
    same("the longest text", lace_open((const uint8_t *)text, LACE_TEXT_BYTES, block, LACE_BLOCK_WORDS, out, 1), LACE_LINE_MALFORMED);
    same("a longer one", lace_open((const uint8_t *)text, LACE_TEXT_BYTES + 1, block, LACE_BLOCK_WORDS, out, 1), LACE_TEXT_TOO_LONG);
    same("the line of that", out[LACE_LINE], 0);
    /* the longest card that opens */
    length = (size_t)sprintf(text, "card,8,64,8,1000000000000000000\n");
    for (int k = 0; k < LACE_VARIABLES; k++)
        length += (size_t)sprintf(text + length, "var,4294967295\n");
    for (int k = 0; k < LACE_PROGRAMS; k++) {
        length += (size_t)sprintf(text + length, "sheet,32\n");
        for (int j = 0; j < 32; j++)
            length += (size_t)sprintf(text + length, "ins,2,3,4294967295,0\n");
    }
    same("the longest card", open_text(text), LACE_TAKEN);
    same("its bytes", length, LACE_WRITTEN_BYTES);
    {
        static uint8_t written[LACE_WRITTEN_BYTES];
        same("it is written", lace_write(block, LACE_BLOCK_WORDS, written, SIZE(written), out, 1), LACE_TAKEN);
        same("its length", out[LACE_LENGTH], LACE_WRITTEN_BYTES);
        same("its text", (uint64_t)memcmp(written, text, length), 0);
        same("a byte too few", lace_write(block, LACE_BLOCK_WORDS, written, SIZE(written) - 1, out, 1), LACE_TOO_SHORT);
    }
}

static const char card_k[] = "card,2,1,1,13\nvar,7\nsheet,4\nins,1,0,0,0\nins,3,1,0,0\nins,4,0,0,0\nins,11,0,1,0\n";

static void statuses(void)
{
    same("another verb", open_text("cart,1,1,1,1\n"), LACE_LINE_MALFORMED);
    same("no line end", open_text("card,1,1,1,1"), LACE_LINE_MALFORMED);
    same("nine processes", open_text("card,9,1,1,5\n"), LACE_NUMBER_OUT_OF_RANGE);
    same("code 15", open_text("card,1,1,1,5\nvar,0\nsheet,1\nins,15,0,0,0\n"), LACE_UNKNOWN_CODE);
    same("the line of that", out[LACE_LINE], 4);
    same("register 4", open_text("card,1,1,1,5\nvar,0\nsheet,1\nins,1,4,0,0\n"), LACE_OPERAND_OUT_OF_RANGE);
    same("an operand of code 12", open_text("card,1,1,1,5\nvar,0\nsheet,1\nins,12,0,1,0\n"), LACE_UNUSED_OPERAND);
    same("a block a word too short", lace_open((const uint8_t *)card_k, strlen(card_k), block, LACE_BLOCK_WORDS - 1, out, 1), LACE_TOO_SHORT);
    same("card K", open_text(card_k), LACE_TAKEN);
    same("process 2", call(2, 0, 0), LACE_NO_PROCESS);
    same("program 1", call(0, 1, 0), LACE_NO_PROGRAM);
    same("a step before a call", step(0), LACE_NOT_BUSY);
    same("a call", call(0, 0, 9), LACE_TAKEN);
    same("a second one", call(0, 0, 9), LACE_BUSY);
    same("variable 1", lace_read(block, LACE_BLOCK_WORDS, 1, out, 1), LACE_NO_VARIABLE);
    same("a loan a word too short", lace_step(block, LACE_BLOCK_WORDS, loan, LACE_LOAN_WORDS(2, 2) - 1, 0, out, SIZE(out)), LACE_TOO_SHORT);
    for (int k = 0; k < 13; k++)
        same("a step within the limit", step(0), LACE_TAKEN);
    same("a step past it", step(0), LACE_LIMIT_REACHED);
    same("a change at the gate's number", change(1, "sheet,1\nins,12,0,0,0\n"), LACE_NOT_AHEAD);
    same("a change", change(9, "sheet,1\nins,12,0,0,0\n"), LACE_TAKEN);
    same("a second one", change(10, "sheet,1\nins,12,0,0,0\n"), LACE_UNSETTLED);
    same("a change that weighs too much", change(11, "sheet,3\nins,3,0,0,0\nins,3,0,0,0\nins,3,0,0,0\n"), LACE_TOO_HEAVY);
    same("the line of that", out[LACE_LINE], 4);
    same("an exit request", lace_request_exit(block, LACE_BLOCK_WORDS, 0), LACE_TAKEN);
    same("one of an idle process", lace_request_exit(block, LACE_BLOCK_WORDS, 1), LACE_NOT_BUSY);
}

/* a program with four outputs that differ: 11, 22, 33 and the old value; the same with a fault at its end */
static const char outputs[] = "card,2,2,2,1000\nvar,44\nvar,55\nsheet,9\nins,2,0,11,0\nins,11,0,0,0\nins,2,0,22,0\nins,11,1,0,0\nins,2,0,33,0\n"
                              "ins,11,2,0,0\nins,3,1,1,0\nins,11,3,1,0\nins,4,1,0,0\nsheet,2\nins,2,0,9,0\nins,5,1,0,0\n";

static void places(void)
{
    int steps = 0;
    same("a card with four outputs", open_text(outputs), LACE_TAKEN);
    same("its weight in words of a loan", lace_loan_words(block, LACE_BLOCK_WORDS), LACE_LOAN_WORDS(2, 2));
    same("a call", call(0, 0, 0), LACE_TAKEN);
    do {
        memset(out, 0xff, sizeof out);
        same("a step", step(0), LACE_TAKEN);
        steps++;
        for (size_t k = 1; out[LACE_KIND] == LACE_RUN && k < SIZE(out); k++)
            same("a number behind a step that runs on", out[k], UINT64_MAX);
    } while (out[LACE_KIND] == LACE_RUN && steps < 100);
    same("its kind", out[LACE_KIND], LACE_DONE);
    same("its own steps", out[LACE_OWN_STEPS], (uint64_t)steps);
    same("its gate number", out[LACE_GATE_NUMBER], 1);
    same("output 0", out[LACE_OUTPUT], 11);
    same("output 1", out[LACE_OUTPUT + 1], 22);
    same("output 2", out[LACE_OUTPUT + 2], 33);
    same("output 3", out[LACE_OUTPUT + 3], 55);
    same("a read", lace_read(block, LACE_BLOCK_WORDS, 1, out, 1), LACE_TAKEN);
    same("its value", out[LACE_VALUE], 33);
    same("a call", call(0, 1, 0), LACE_TAKEN);
    for (steps = 0; steps == 0 || (out[LACE_KIND] == LACE_RUN && steps < 100); steps++)
        same("a step", step(0), LACE_TAKEN);
    same("a variable that is not there", out[LACE_KIND], LACE_FAULT);
    same("its gate number", out[LACE_GATE_NUMBER], 2);
    same("its output", out[LACE_OUTPUT], 0);
}

/* document 01: 'process 0 with 5, 1 with 9. 0 steps twice, 1 five times, wish for 0, then 0 until it returns: exited at its own step 12' */
static void withdrawn(void)
{
    static const char card[] = "card,2,1,1,100\nvar,7\nsheet,4\nins,1,0,0,0\nins,3,1,0,0\nins,4,0,0,0\nins,11,0,1,0\n";
    same("card K for two", open_text(card), LACE_TAKEN);
    call(0, 0, 5);
    call(1, 0, 9);
    for (int k = 0; k < 7; k++)
        step(k < 2 ? 0 : 1);
    same("an exit request", lace_request_exit(block, LACE_BLOCK_WORDS, 0), LACE_TAKEN);
    memset(out, 0xff, sizeof out);
    for (int k = 2; k < 12; k++)
        same("a step", step(0), LACE_TAKEN);
    same("an operation withdrawn", out[LACE_KIND], LACE_EXITED);
    same("its own steps", out[LACE_OWN_STEPS], 12);
    same("nothing stands behind them", out[LACE_GATE_NUMBER], UINT64_MAX);
}

/* the second operation on a card: its gate number, the word of noted variables, their count and the numbers of its cells all differ */
static void reports(void)
{
    static const char card[] = "card,2,6,1,1000\nvar,7\nvar,7\nvar,7\nvar,7\nvar,7\nvar,7\nsheet,3\nins,3,0,5,0\nins,1,1,0,0\nins,4,4,1,0\n";
    static const char *const lines[] = {
        "P,1,G,0,-,2,0,0",
        "P,3,A,1,-,2,0,0",
        "P,10,G,0,-,2,0,0",
        "C,2,A,0,-,2,0,0",
        "C,4,A,1,-,2,0,0",
        "P,13,G,0,1,2,0,0",
        "P,14,G,0,-,2,0,0",
        "P,16,A,1,-,2,0,0",
        "H,21,R,5,-,2,32,1",
        "H,21,R,4,-,2,48,2",
        "H,36,R,4,1,2,48,2",
        "P,19,A,1,1,2,48,2",
        "P,20,A,1,0,2,48,2",
        "P,21,G,0,1,2,0,0",
        "P,22,A,1,-,2,0,0",
        "F,1,G,0,-,3,0,0",
    };
    char found[80];
    same("a card of six variables", open_text(card), LACE_TAKEN);
    for (int k = 0; k < 2; k++) {
        same("a call", call(1, 0, 9 - (uint32_t)k), LACE_TAKEN);
        for (int steps = 0; k == 0 && (steps == 0 || (out[LACE_KIND] == LACE_RUN && steps < 100)); steps++)
            same("a step", step(1), LACE_TAKEN);
    }
    for (size_t k = 0; k < SIZE(lines); k++) {
        same("a traced step", lace_trace(block, LACE_BLOCK_WORDS, loan, SIZE(loan), 1, out, SIZE(out), report, SIZE(report)), LACE_TAKEN);
        sprintf(found, "%c,%d,%c,%d,%c,%d,%d,%d", (int)report[LACE_LABEL_LETTER], (int)report[LACE_LABEL_LINE],
                (int)report[LACE_CELL_LETTER], (int)report[LACE_CELL_NUMBER], (int)report[LACE_SWAP], (int)report[LACE_LAST_GATE_NUMBER],
                (int)report[LACE_NOTED], (int)report[LACE_NOTED_COUNT]);
        if (strcmp(found, lines[k]) != 0)
            printf("step %d: %s, not %s\n", (int)k + 1, found, lines[k]);
        same("a report that is another", (uint64_t)(strcmp(found, lines[k]) != 0), 0);
    }
    same("the last of them", out[LACE_KIND], LACE_DONE);
    same("its gate number", out[LACE_GATE_NUMBER], 2);
}

/* a schedule in one call, beside the same steps and calls one by one: the same block, loan and counts, no two of which are equal */
static void runs(void)
{
    static const char card[] = "card,3,2,2,1000\nvar,44\nvar,55\nsheet,3\nins,3,1,1,0\nins,11,0,1,0\nins,4,1,1,0\nsheet,2\nins,2,0,9,0\nins,5,1,0,0\n";
    static const uint32_t calls[] = { 0, 1, 2, 3, 4, 1, 0, 0, 0, 0, 0, 7, 0, 0, 0 };
    static uint64_t other[LACE_BLOCK_WORDS], lent[LACE_LOAN_WORDS_MAX];
    uint8_t schedule[600];
    uint64_t counts[LACE_RUN_WORDS] = { 0 }, found[LACE_RUN_WORDS];
    same("a card of three processes", open_text(card), LACE_TAKEN);
    memset(loan, 0, sizeof loan);
    for (uint32_t i = 0; i < 3; i++)
        same("a call", lace_call(block, LACE_BLOCK_WORDS, i, calls[5 * i], calls[5 * i + 1], calls[5 * i + 2], calls[5 * i + 3], calls[5 * i + 4]), LACE_TAKEN);
    for (size_t k = 0; k < SIZE(schedule); k++)
        schedule[k] = (uint8_t)(k < 8 ? 0 : k * k % 7 == 1 ? 2 : k % 3 == 0);
    same("an exit request", lace_request_exit(block, LACE_BLOCK_WORDS, 2), LACE_TAKEN);
    schedule[50] = 3; /* no such process: refused, and nothing counted */
    memcpy(other, block, sizeof other);
    for (size_t k = 0; k < SIZE(schedule); k++) {
        uint32_t i = schedule[k];
        if (lace_step(other, LACE_BLOCK_WORDS, lent, SIZE(lent), i, out, SIZE(out)) != LACE_TAKEN)
            continue;
        counts[LACE_ACCEPTED]++;
        if (out[LACE_KIND] == LACE_RUN)
            continue;
        counts[out[LACE_KIND] == LACE_DONE ? LACE_DONES : out[LACE_KIND] == LACE_FAULT ? LACE_FAULTS : LACE_EXITS]++;
        if (out[LACE_OWN_STEPS] > counts[LACE_LONGEST])
            counts[LACE_LONGEST] = out[LACE_OWN_STEPS];
        lace_call(other, LACE_BLOCK_WORDS, i, calls[5 * i], calls[5 * i + 1], calls[5 * i + 2], calls[5 * i + 3], calls[5 * i + 4]);
    }
    same("a run", lace_run(block, LACE_BLOCK_WORDS, loan, SIZE(loan), calls, SIZE(calls), schedule, SIZE(schedule), found, SIZE(found)), LACE_TAKEN);
    same("its steps", found[LACE_ACCEPTED], counts[LACE_ACCEPTED]);
    same("its operations done", found[LACE_DONES], counts[LACE_DONES]);
    same("its faults", found[LACE_FAULTS], counts[LACE_FAULTS]);
    same("its exits", found[LACE_EXITS], counts[LACE_EXITS]);
    same("its longest wait", found[LACE_LONGEST], counts[LACE_LONGEST]);
    for (int a = 0; a < LACE_RUN_WORDS; a++)
        for (int b = 0; b < a; b++)
            same("two counts that are equal", counts[a] == counts[b], 0);
    same("the block of a run", (uint64_t)(memcmp(block, other, sizeof other) != 0), 0);
    same("the loan of a run", (uint64_t)(memcmp(loan, lent, sizeof lent) != 0), 0);
    same("LACE_CALL_WORDS", SIZE(calls), 3 * LACE_CALL_WORDS);
    memset(found, 0xff, sizeof found);
    same("a loan a word too short", lace_run(block, LACE_BLOCK_WORDS, loan, lace_loan_words(block, LACE_BLOCK_WORDS) - 1, calls, SIZE(calls), schedule, SIZE(schedule), found, SIZE(found)), LACE_TOO_SHORT);
    same("nothing is told of it", found[LACE_ACCEPTED], UINT64_MAX);
    same("the block of it", (uint64_t)(memcmp(block, other, sizeof other) != 0), 0);
}

/* two machines on one processor: each place of the allowance by a number that stands nowhere else, and each refusal by its name */
static void machines(void)
{
    static uint64_t blocks[2 * LACE_BLOCK_WORDS], loans[2 * LACE_LOAN_WORDS(2, 2)], allowance[LACE_ALLOWANCE_WORDS];
    static const uint64_t terms[LACE_MACHINES * LACE_TERM_WORDS + 2] = { 2, 5, 3, 9 };
    const size_t bn = SIZE(blocks), ln = SIZE(loans), an = SIZE(allowance);
    const uint32_t stride = LACE_LOAN_WORDS(2, 2);
    same("the most machines", lace_machines_open(allowance, an, LACE_MACHINES, LACE_TURN_STEPS, terms, SIZE(terms)), LACE_TAKEN);
    same("one more", lace_machines_open(allowance, an, LACE_MACHINES + 1, LACE_TURN_STEPS, terms, SIZE(terms)), LACE_BAD_TERMS);
    same("it leaves none", allowance[LACE_MACHINE_COUNT], 0);
    same("no machine", lace_machines_open(allowance, an, 0, 7, terms, SIZE(terms)), LACE_BAD_TERMS);
    same("a turn that is too long", lace_machines_open(allowance, an, 2, LACE_TURN_STEPS + 1, terms, SIZE(terms)), LACE_BAD_TERMS);
    same("a turn without steps", lace_machines_open(allowance, an, 2, 0, terms, SIZE(terms)), LACE_BAD_TERMS);
    same("a turn below the shares", lace_machines_open(allowance, an, 2, 4, terms, SIZE(terms)), LACE_BAD_TERMS);
    same("a share above its ceiling", lace_machines_open(allowance, an, 1, 7, (const uint64_t[]){ 2, 1 }, 2), LACE_BAD_TERMS);
    same("two machines", lace_machines_open(allowance, an, 2, 7, terms, 2 * LACE_TERM_WORDS), LACE_TAKEN);
    same("a term too few", lace_machines_open(allowance, an, 2, 8, terms, 2 * LACE_TERM_WORDS - 1), LACE_TOO_SHORT);
    same("a word of the allowance too few", lace_machines_open(allowance, an - 1, 2, 8, terms, SIZE(terms)), LACE_TOO_SHORT);
    same("steps of a turn", allowance[LACE_TURN], 7);
    same("how many machines", allowance[LACE_MACHINE_COUNT], 2);
    same("a share", allowance[LACE_SHARE + 3], 3);
    same("a ceiling", allowance[LACE_CEILING], 5);
    same("the other ceiling", allowance[LACE_CEILING + 3], 9);
    same("past the last machine", allowance[LACE_CEILING + 6] + allowance[LACE_SHARE + 9], 0);
    for (uint32_t m = 0; m < 2; m++) {
        same("a card", lace_machines_open_card(blocks, bn, m, (const uint8_t *)card_k, strlen(card_k), out, 1), LACE_TAKEN);
        same("a call", lace_machines_call(allowance, an, blocks, bn, m, 0, 0, 9, 0, 0, 0), LACE_TAKEN);
    }
    same("a third block", lace_machines_open_card(blocks, bn, 2, (const uint8_t *)card_k, strlen(card_k), out, 1), LACE_TOO_SHORT);
    same("a machine that is not there", lace_machines_call(allowance, an, blocks, bn, 2, 0, 0, 9, 0, 0, 0), LACE_NO_PROCESS);
    same("an allowance that is too short", lace_machines_call(allowance, an - 1, blocks, bn, 0, 1, 0, 9, 0, 0, 0), LACE_NO_PROCESS);
    for (int k = 0; k < 4; k++)
        same("a step", lace_machines_step(allowance, an, blocks, bn, loans, ln, stride, 0, 0, out, SIZE(out)), LACE_TAKEN);
    same("steps used", allowance[LACE_USED], 4);
    same("steps used by the other", allowance[LACE_USED + 3], 0);
    same("a step of the other's share", lace_machines_step(allowance, an, blocks, bn, loans, ln, stride, 0, 0, out, SIZE(out)), LACE_NO_ALLOWANCE);
    same("a step that is refused for another reason", lace_machines_step(allowance, an, blocks, bn, loans, ln, stride, 0, 1, out, SIZE(out)), LACE_NOT_BUSY);
    same("a loan a word too short", lace_machines_step(allowance, an, blocks, bn, loans, ln - 1, stride, 1, 0, out, SIZE(out)), LACE_TOO_SHORT);
    same("a stride a word too short", lace_machines_step(allowance, an, blocks, bn, loans, ln, stride - 1, 1, 0, out, SIZE(out)), LACE_TOO_SHORT);
    same("a traced step", lace_machines_trace(allowance, an, blocks, bn, loans, ln, stride, 1, 0, out, SIZE(out), report, SIZE(report)), LACE_TAKEN);
    same("its label", report[LACE_LABEL_LETTER] * 100 + report[LACE_LABEL_LINE], 'P' * 100 + 1);
    same("a read", lace_machines_read(allowance, an, blocks, bn, 1, 0, out, 1), LACE_TAKEN);
    same("its value", out[LACE_VALUE], 7);
    same("an exit request", lace_machines_request_exit(allowance, an, blocks, bn, 1, 0), LACE_TAKEN);
    same("one of an idle process", lace_machines_request_exit(allowance, an, blocks, bn, 1, 1), LACE_NOT_BUSY);
    same("a change", lace_machines_change(allowance, an, blocks, bn, 1, 0, 0, (const uint8_t *)"", 0, out, 1), LACE_LINE_MALFORMED);
    same("a change of a machine that is not there", lace_machines_change(allowance, an, blocks, bn, 2, 0, 9, (const uint8_t *)"", 0, out, 1), LACE_NO_PROCESS);
    same("its line", out[LACE_LINE], 0);
    lace_machines_turn(allowance, an);
    same("steps used in a new turn", allowance[LACE_USED] + allowance[LACE_USED + 3], 0);
    same("its steps", allowance[LACE_TURN], 7);
    same("a step in it", lace_machines_step(allowance, an, blocks, bn, loans, ln, stride, 0, 0, out, SIZE(out)), LACE_TAKEN);
}

int main(void)
{
    sizes();
    limits();
    statuses();
    places();
    withdrawn();
    reports();
    runs();
    machines();
    printf("numbers of the header: %d checks, %d failed\n", checks, failures);
    return failures != 0;
}
