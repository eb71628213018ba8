/*
 * Random blocks, loans, texts, arrays, lengths and numbers through every function of the header, for some seconds.
 * usage: random SECONDS [SEED]
 * Each array stands flush against a page that may be neither read nor written, with guard words before it; what is right behind its last element ends
 * the program, and what is before its first is compared after every call. Every call is made twice, from the same contents at two places, and both must
 * answer and leave the same. A refused call leaves what the header says, and no call fills more of `out` than the header says. Of two machines in one
 * array only the words of the one that is asked may change, and of their allowance its steps used. With length 0 the pointer is NULL every other
 * time. The seed is printed, and a failure prints the number of its call.
 */
#define _DEFAULT_SOURCE
#include <stdint.h>
#include <stdio.h>
#include <stdlib.h>
#include <string.h>
#include <sys/mman.h>
#include <time.h>
#include <unistd.h>

#include "lace_card.h"

enum { BLOCK, LOAN, OUT, REPORT, TEXT, CALLS, ALLOWANCE, TERMS, ARRAYS, COPIES = 2, MOST = 24000, GUARDED = 64 };

struct array {
    uint8_t *end;          /* the page behind */
    uint8_t *start;        /* where it starts now */
    size_t size, count;    /* bytes of an element, and how many there are */
    uint8_t before[MOST];  /* what it held before the call */
};

static struct array arrays[COPIES][ARRAYS];
static const char *const names[] = { "block", "loan", "out", "report", "text", "calls", "allowance", "terms" };
static uint64_t seed, state;
static unsigned long calls, taken, refused[32];
static uint32_t stride; /* words of a machine's loan */

static uint64_t draw(void)
{
    state ^= state << 13;
    state ^= state >> 7;
    state ^= state << 17;
    return state;
}

static uint32_t below(uint32_t n)
{
    return (uint32_t)(draw() >> 32) % n;
}

static void fail(const char *what, const char *which)
{
    printf("random: %s %s (seed %llu, call %lu)\n", what, which, (unsigned long long)seed, calls);
    exit(1);
}

/* ---- memory ---- */

static void map(struct array *a, size_t size)
{
    size_t page = (size_t)sysconf(_SC_PAGESIZE);
    size_t room = (MOST + GUARDED + page - 1) / page * page;
    uint8_t *start = mmap(NULL, room + page, PROT_READ | PROT_WRITE, MAP_PRIVATE | MAP_ANONYMOUS, -1, 0);
    if (start == MAP_FAILED || mprotect(start + room, page, PROT_NONE) != 0)
        fail("no memory for", "arrays");
    a->end = start + room;
    a->size = size;
}

/* so many elements with these bytes, and guard bytes before them */
static void set(int which, size_t count, const uint8_t *bytes)
{
    for (int copy = 0; copy < COPIES; copy++) {
        struct array *a = &arrays[copy][which];
        a->count = count;
        a->start = a->end - count * a->size;
        memset(a->start - GUARDED, 0xa5 ^ which, GUARDED);
        memcpy(a->start, bytes, count * a->size);
        memcpy(a->before, bytes, count * a->size);
    }
}

static void *at(int copy, int which)
{
    struct array *a = &arrays[copy][which];
    return a->count == 0 && draw() % 2 ? NULL : a->start;
}

static size_t count(int which)
{
    return arrays[0][which].count;
}

/* whether the elements from one on, up to another, are as they were before the call */
static int is_kept(int which, size_t from, size_t to)
{
    struct array *a = &arrays[0][which];
    if (to > a->count)
        to = a->count;
    return from >= to || memcmp(a->start + from * a->size, a->before + from * a->size, (to - from) * a->size) == 0;
}

/* ---- contents ---- */

/* a card that opens, mostly, in the bytes of a text: its length */
static size_t card_text(uint8_t *bytes)
{
    char *text = (char *)bytes;
    uint32_t p = 1 + below(8), n = 1 + below(draw() % 4 ? 4 : 64), s = 1 + below(3);
    int length = sprintf(text, "card,%u,%u,%u,%u\n", p, n, s, 1 + below(2000));
    for (uint32_t v = 0; v < n; v++)
        length += sprintf(text + length, "var,%u\n", below(4) ? below(n + 1) : (uint32_t)draw());
    for (uint32_t k = 0; k < s; k++) {
        uint32_t lines = 1 + below(draw() % 4 ? 6 : 32);
        length += sprintf(text + length, "sheet,%u\n", lines);
        for (uint32_t j = 0; j < lines; j++) {
            uint32_t code = 1 + below(14), a = below(4), b = below(4), c = 0;
            if (code == 2)
                b = below(n + 2);
            else if (code == 3)
                b = below(n);
            else if (code == 4)
                a = below(n);
            else if (code == 9 || code == 10)
                c = 1 + below(31);
            else if (code == 12)
                a = b = 0;
            else if (code == 13 || code == 14)
                b = 0;
            length += sprintf(text + length, "ins,%u,%u,%u,%u\n", code, a, b, c);
        }
    }
    for (uint32_t k = 0; draw() % 4 == 0 && k < 3; k++)
        text[below((uint32_t)length)] = (char)draw();
    return (size_t)length;
}

/* a block of a card that was opened and ran for some calls, with some of its words altered */
static size_t block_words(uint64_t *words)
{
    static uint8_t text[MOST];
    static uint64_t lent[LACE_LOAN_WORDS_MAX];
    size_t length = card_text(text);
    for (size_t k = 0; k < MOST / 8; k++)
        words[k] = draw();
    lace_open(text, length, words, LACE_BLOCK_WORDS, NULL, 0);
    for (uint32_t k = below(200); k > 0; k--) {
        uint32_t process = below(8);
        if (lace_step(words, LACE_BLOCK_WORDS, lent, LACE_LOAN_WORDS_MAX, process, NULL, 0) == LACE_NOT_BUSY)
            lace_call(words, LACE_BLOCK_WORDS, process, below(3), below(70), below(3), 0, 0);
        if (draw() % 32 == 0)
            lace_request_exit(words, LACE_BLOCK_WORDS, process);
    }
    for (uint32_t k = draw() % 2 ? below(40) : 0; k > 0; k--)
        words[draw() % 4 ? below(LACE_BLOCK_WORDS) : below(8)] = draw() % 2 ? draw() : below(300);
    return draw() % 8 ? LACE_BLOCK_WORDS + below(3) : below(2 * LACE_BLOCK_WORDS);
}

/* two blocks, one behind the other, and the words that the longer of their loans takes */
static size_t two_blocks(uint64_t *words)
{
    static uint64_t second[MOST / 8];
    size_t asked;
    block_words(words);
    block_words(second);
    memcpy(words + LACE_BLOCK_WORDS, second, (MOST / 8 - LACE_BLOCK_WORDS) * 8);
    asked = lace_loan_words(second, LACE_BLOCK_WORDS);
    stride = (uint32_t)lace_loan_words(words, LACE_BLOCK_WORDS);
    if (asked > stride)
        stride = (uint32_t)asked;
    if (stride > MOST / 16)
        stride = MOST / 16; /* of altered words only */
    return draw() % 8 ? 2 * LACE_BLOCK_WORDS + below(3) : below(MOST / 8);
}

/* the allowance of two machines, mostly, with some steps used, and sometimes altered */
static void prepare_allowance(void)
{
    uint64_t words[20], terms[12];
    for (size_t k = 0; k < 12; k++)
        terms[k] = draw() % 16 ? below(k % 2 ? 60 : 20) : draw();
    set(TERMS, draw() % 4 ? 2 * LACE_MACHINES : below(12), (uint8_t *)terms);
    for (size_t k = 0; k < 20; k++)
        words[k] = draw();
    if (lace_machines_open(words, LACE_ALLOWANCE_WORDS, 1 + below(3), 1 + below(60), terms, 12) == LACE_TAKEN)
        for (size_t m = 0; m < LACE_MACHINES; m++)
            words[LACE_USED + 3 * m] = below(20);
    if (draw() % 4 == 0)
        words[below(LACE_ALLOWANCE_WORDS)] = draw() % 2 ? draw() : below(10);
    set(ALLOWANCE, draw() % 8 ? LACE_ALLOWANCE_WORDS + below(3) : below(LACE_ALLOWANCE_WORDS), (uint8_t *)words);
}

static void prepare(int of_machines)
{
    static uint64_t words[MOST / 8];
    static uint8_t bytes[MOST];
    size_t length = of_machines ? two_blocks(words) : block_words(words);
    size_t asked = of_machines ? 2 * stride : lace_loan_words(words, LACE_BLOCK_WORDS);
    set(BLOCK, length, (uint8_t *)words);
    prepare_allowance();
    for (size_t k = 0; k < MOST / 8; k++)
        words[k] = draw() % 4 ? draw() : below(70);
    if (asked > MOST / 8)
        asked = MOST / 8; /* of altered words only: no card has more than 768 */
    set(LOAN, draw() % 4 ? asked : below(900), (uint8_t *)words);
    set(OUT, below(12), (uint8_t *)words);
    set(REPORT, below(12), (uint8_t *)words + 800);
    set(CALLS, draw() % 4 ? 40 : below(50), (uint8_t *)words + 1600);
    length = card_text(bytes);
    if (draw() % 2) { /* a program alone, the first one: what a change brings */
        uint8_t *start = (uint8_t *)strstr((char *)bytes, "sheet");
        uint8_t *end = start ? (uint8_t *)strstr((char *)start + 1, "sheet") : NULL;
        if (start) {
            length = (size_t)((end ? end : bytes + length) - start);
            memmove(bytes, start, length);
        }
    }
    if (draw() % 4 == 0) { /* a schedule */
        length = below(400);
        for (size_t k = 0; k < length; k++)
            bytes[k] = (uint8_t)(draw() % 16 ? below(8) : (uint8_t)draw());
    }
    set(TEXT, draw() % 4 ? length : below(MOST), bytes);
}

/* ---- calls ---- */

/* what a call may have filled of `out` and of `report`, and which arrays it may have altered where it was taken */
struct allowed {
    size_t out, report;
    int altered; /* bits of BLOCK, LOAN, TEXT, ALLOWANCE */
    uint32_t refusals; /* bits of the numbers that it can answer */
};

#define TEXT_REFUSALS (1u << 1 | 1u << 2 | 1u << 3 | 1u << 4 | 1u << 12 | 1u << 13 | 1u << 14)

#define STEP_REFUSALS (1u << 5 | 1u << 8 | 1u << 10 | 1u << 11 | 1u << 19)

static uint32_t number(void)
{
    return draw() % 8 ? below(draw() % 4 ? 3 : 10) : (uint32_t)draw();
}

/* whether a step of machine m, or a turn, left the allowance as it is to; `spent` where a step was accepted */
static int is_allowance(uint32_t m, int turned, int spent)
{
    struct array *a = &arrays[0][ALLOWANCE];
    uint64_t before[20], after[20];
    memcpy(before, a->before, a->count * 8);
    memcpy(after, a->start, a->count * 8);
    for (size_t k = 0; k < LACE_MACHINES && a->count >= LACE_ALLOWANCE_WORDS; k++)
        if (turned)
            before[LACE_USED + 3 * k] = 0;
        else if (spent && k == m)
            before[LACE_USED + 3 * k]++;
    return memcmp(before, after, a->count * 8) == 0;
}

enum { ONE_CARD = 14, MACHINES_OPEN = ONE_CARD, MACHINES_TURN, MACHINES_OPEN_CARD, MACHINES_STEP, MACHINES_TRACE = MACHINES_STEP + 3, MACHINES_OTHERS };

int main(int words, char **argument)
{
    double seconds = words > 1 ? atof(argument[1]) : 3;
    clock_t end = clock() + (clock_t)(seconds * CLOCKS_PER_SEC);
    seed = words > 2 ? strtoull(argument[2], NULL, 10) : (uint64_t)time(NULL) * 2654435761u + (uint64_t)getpid();
    state = seed ? seed : 1;
    printf("random: seed %llu\n", (unsigned long long)seed);
    for (int copy = 0; copy < COPIES; copy++)
        for (int which = 0; which < ARRAYS; which++)
            map(&arrays[copy][which], which == TEXT ? 1 : which == CALLS ? 4 : 8);
    while (clock() < end) {
        uint32_t function = below(MACHINES_OTHERS + 4), machine = draw() % 8 ? below(2) : number(), a = number(), b = number(), inputs[4];
        uint64_t from = draw() % 4 ? below(12) : draw();
        uint64_t answers[COPIES];
        struct allowed may = { 0, 0, 0, 0 };
        uint32_t status;
        for (int k = 0; k < 4; k++)
            inputs[k] = number();
        prepare(function >= ONE_CARD);
        calls++;
        for (int copy = 0; copy < COPIES; copy++) {
            uint64_t *block = at(copy, BLOCK), *loan = at(copy, LOAN), *out = at(copy, OUT), *report = at(copy, REPORT);
            uint64_t *allowance = at(copy, ALLOWANCE);
            uint8_t *text = at(copy, TEXT);
            size_t an = count(ALLOWANCE), bn = count(BLOCK), ln = count(LOAN), on = count(OUT), rn = count(REPORT), tn = count(TEXT);
            switch (function) {
            case 0:
                may = (struct allowed){ 0, 0, 1 << BLOCK, TEXT_REFUSALS | 1u << 11 };
                answers[copy] = lace_open(text, tn, block, bn, out, on);
                break;
            case 1:
                may = (struct allowed){ 0, 0, 1 << BLOCK, 1u << 5 | 1u << 6 | 1u << 7 };
                answers[copy] = lace_call(block, bn, a, b, inputs[0], inputs[1], inputs[2], inputs[3]);
                break;
            case 2:
                may = (struct allowed){ 0, 0, 1 << BLOCK, 1u << 5 | 1u << 8 };
                answers[copy] = lace_request_exit(block, bn, a);
                break;
            case 3:
            case 4:
            case 5:
                may = (struct allowed){ LACE_STEP_WORDS, 0, 1 << BLOCK | 1 << LOAN, 1u << 5 | 1u << 8 | 1u << 10 | 1u << 11 };
                answers[copy] = lace_step(block, bn, loan, ln, a, out, on);
                break;
            case 6:
            case 7:
                may = (struct allowed){ LACE_STEP_WORDS, LACE_REPORT_WORDS, 1 << BLOCK | 1 << LOAN, 1u << 5 | 1u << 8 | 1u << 10 | 1u << 11 };
                answers[copy] = lace_trace(block, bn, loan, ln, a, out, on, report, rn);
                break;
            case 8:
                may = (struct allowed){ 1, 0, 0, 1u << 9 };
                answers[copy] = lace_read(block, bn, a, out, on);
                break;
            case 9:
                may = (struct allowed){ 0, 0, 1 << BLOCK, TEXT_REFUSALS | 1u << 6 | 1u << 15 | 1u << 16 };
                answers[copy] = lace_change(block, bn, a, from, text, tn, out, on);
                break;
            case 10:
                may = (struct allowed){ 1, 0, 1 << TEXT, 1u << 11 };
                answers[copy] = lace_write(block, bn, text, tn, out, on);
                break;
            case 11:
                may = (struct allowed){ LACE_RUN_WORDS, 0, 1 << BLOCK | 1 << LOAN, 1u << 11 };
                answers[copy] = lace_run(block, bn, loan, ln, at(copy, CALLS), count(CALLS), text, tn, out, on);
                break;
            case 12:
                answers[copy] = lace_loan_words(block, bn) + lace_wait(block, bn);
                break;
            case 13:
                answers[copy] = lace_loan_size(a, b) + lace_wait_for(a, b);
                break;
            case MACHINES_OPEN:
                may = (struct allowed){ 0, 0, 1 << ALLOWANCE, 1u << 11 | 1u << 18 };
                answers[copy] = lace_machines_open(allowance, an, a, from, at(copy, TERMS), count(TERMS));
                break;
            case MACHINES_TURN:
                may = (struct allowed){ 0, 0, 1 << ALLOWANCE, 0 };
                lace_machines_turn(allowance, an);
                answers[copy] = 0;
                break;
            case MACHINES_OPEN_CARD:
                may = (struct allowed){ 0, 0, 1 << BLOCK, TEXT_REFUSALS | 1u << 11 };
                answers[copy] = lace_machines_open_card(block, bn, machine, text, tn, out, on);
                break;
            case MACHINES_STEP:
            case MACHINES_STEP + 1:
            case MACHINES_STEP + 2:
                may = (struct allowed){ LACE_STEP_WORDS, 0, 1 << BLOCK | 1 << LOAN | 1 << ALLOWANCE, STEP_REFUSALS };
                answers[copy] = lace_machines_step(allowance, an, block, bn, loan, ln, stride, machine, a, out, on);
                break;
            case MACHINES_TRACE:
                may = (struct allowed){ LACE_STEP_WORDS, LACE_REPORT_WORDS, 1 << BLOCK | 1 << LOAN | 1 << ALLOWANCE, STEP_REFUSALS };
                answers[copy] = lace_machines_trace(allowance, an, block, bn, loan, ln, stride, machine, a, out, on, report, rn);
                break;
            case MACHINES_OTHERS:
                may = (struct allowed){ 0, 0, 1 << BLOCK, 1u << 5 | 1u << 6 | 1u << 7 };
                answers[copy] = lace_machines_call(allowance, an, block, bn, machine, a, b, inputs[0], inputs[1], inputs[2], inputs[3]);
                break;
            case MACHINES_OTHERS + 1:
                may = (struct allowed){ 0, 0, 1 << BLOCK, 1u << 5 | 1u << 8 };
                answers[copy] = lace_machines_request_exit(allowance, an, block, bn, machine, a);
                break;
            case MACHINES_OTHERS + 2:
                may = (struct allowed){ 1, 0, 0, 1u << 5 | 1u << 9 };
                answers[copy] = lace_machines_read(allowance, an, block, bn, machine, a, out, on);
                break;
            default:
                may = (struct allowed){ 0, 0, 1 << BLOCK, TEXT_REFUSALS | 1u << 5 | 1u << 6 | 1u << 15 | 1u << 16 };
                answers[copy] = lace_machines_change(allowance, an, block, bn, machine, a, from, text, tn, out, on);
            }
        }
        if (answers[0] != answers[1])
            fail("two answers to one call of function", (char[]){ (char)('a' + function), 0 });
        status = function != 12 && function != 13 ? (uint32_t)answers[0] : 0;
        if (status > 31 || (status && !(may.refusals >> status & 1)))
            fail("an answer that is none of", "the function's");
        if (status) {
            int opens = function == 0 || function == MACHINES_OPEN_CARD;
            int changes = function == 9 || function == MACHINES_OTHERS + 3;
            may.altered = opens && status != 11 ? 1 << BLOCK : 0; /* a refused text leaves the empty card */
            may.altered |= function == MACHINES_OPEN && status == 18 ? 1 << ALLOWANCE : 0; /* refused terms leave no machines */
            may.out = opens || changes; /* and its line */
            may.report = 0;
            refused[status]++;
        } else {
            taken++;
        }
        if (function != MACHINES_OPEN && !is_allowance(machine, function == MACHINES_TURN, function >= MACHINES_STEP && function <= MACHINES_TRACE && !status))
            fail("the steps used are not those of", "the call");
        for (int which = 0; which < ARRAYS; which++) {
            /* the elements that it may have altered: `size` from `first` on */
            size_t size = which == OUT ? may.out : which == REPORT ? may.report : !(may.altered >> which & 1) ? 0 : MOST;
            size_t first = 0;
            if (which == BLOCK && size)
                size = LACE_BLOCK_WORDS;
            if (which == BLOCK && function >= ONE_CARD)
                first = (size_t)LACE_BLOCK_WORDS * machine;
            if (which == LOAN && size && function >= ONE_CARD)
                size = stride;
            if (which == LOAN && function >= ONE_CARD)
                first = (size_t)stride * machine;
            if (which == ALLOWANCE && size)
                size = LACE_ALLOWANCE_WORDS;
            if (!is_kept(which, 0, first) || !is_kept(which, first + size, SIZE_MAX))
                fail("touched what it may not of", names[which]);
            if (memcmp(arrays[0][which].start, arrays[1][which].start, count(which) * arrays[0][which].size) != 0)
                fail("two calls leave two contents of", names[which]);
            for (int copy = 0; copy < COPIES; copy++)
                for (int k = 1; k <= GUARDED; k++)
                    if (arrays[copy][which].start[-k] != (uint8_t)(0xa5 ^ which))
                        fail("touched what stands before", names[which]);
        }
    }
    printf("random: %lu calls, %lu taken; refused", calls, taken);
    for (int k = 0; k < 32; k++)
        if (refused[k])
            printf(" %d: %lu", k, refused[k]);
    printf("\n");
    return 0;
}
