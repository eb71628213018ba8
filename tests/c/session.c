/*
 * Runs a session of the bench program through the header alone, and prints what the program bench prints: reads `card.txt` and `calls.txt` in the folder
 * where it is run (docs/FORMATS.md has their forms and the answers).
 * usage: session [SEED [short]]
 * With SEED other than 0 the words of the loan become random before every command. With a second argument every step is asked for with a loan
 * that is a word too short first, which is to be refused and to change nothing. At the end standard error tells whether the words around the block
 * and the loan, and all that a refused step may not touch, are as they were. The program is called like the test program lent_session, so that the simulator judges both.
 */
#include <stdint.h>
#include <stdio.h>
#include <stdlib.h>
#include <string.h>

#include "lace_card.h"

#define GUARD 16
#define PATTERN UINT64_C(6510615555426900570)
#define CALLS_BYTES 65536

static uint64_t block_room[GUARD + LACE_BLOCK_WORDS + GUARD];
static uint64_t loan_room[GUARD + LACE_LOAN_WORDS_MAX + GUARD];
static uint64_t *const block = block_room + GUARD;
static uint64_t *const loan = loan_room + GUARD;
static int kept = 1;

/* at most one byte more than `limit` is read; a file that cannot be opened counts as empty */
static size_t read_file(const char *path, uint8_t *bytes, size_t limit)
{
    FILE *file = fopen(path, "rb");
    size_t length = 0;
    if (file) {
        length = fread(bytes, 1, limit + 1, file);
        fclose(file);
    }
    return length;
}

static void fill(uint64_t *words, size_t count)
{
    for (size_t k = 0; k < count; k++)
        words[k] = PATTERN;
}

static void look_around(void)
{
    size_t words = lace_loan_words(block, LACE_BLOCK_WORDS);
    for (size_t k = 0; k < GUARD; k++)
        if (block_room[k] != PATTERN || block[LACE_BLOCK_WORDS + k] != PATTERN || loan_room[k] != PATTERN)
            kept = 0;
    for (size_t k = words; k < LACE_LOAN_WORDS_MAX + GUARD; k++)
        if (loan[k] != PATTERN)
            kept = 0;
}

/* ---- commands ---- */

struct command {
    const char *verb; /* NULL: the line is malformed */
    uint32_t numbers[6];
};

static const struct {
    const char *verb;
    size_t count;
} verbs[] = { { "call", 6 }, { "wish", 1 }, { "step", 1 }, { "trace", 1 }, { "look", 1 }, { "change", 3 } };

/* a decimal without a sign or a leading zero, below 2^32; the place past it, or NULL */
static const uint8_t *number(const uint8_t *at, const uint8_t *end, uint32_t *value)
{
    uint64_t sum = 0;
    const uint8_t *start = at;
    while (at < end && *at >= '0' && *at <= '9') {
        sum = sum * 10 + (uint64_t)(*at - '0');
        if (sum > UINT32_MAX || (at > start && *start == '0'))
            return NULL;
        at++;
    }
    *value = (uint32_t)sum;
    return at == start ? NULL : at;
}

/* the command of a line, which ends before `end` */
static struct command parse(const uint8_t *line, const uint8_t *end)
{
    struct command command = { NULL, { 0 } };
    for (size_t v = 0; v < sizeof verbs / sizeof *verbs; v++) {
        size_t length = strlen(verbs[v].verb);
        const uint8_t *at = line + length;
        size_t k = 0;
        if ((size_t)(end - line) < length || memcmp(line, verbs[v].verb, length) != 0)
            continue;
        while (at && at < end && *at == ',' && k < verbs[v].count)
            at = number(at + 1, end, &command.numbers[k++]);
        if (at == end && k == verbs[v].count) {
            command.verb = verbs[v].verb;
            return command;
        }
    }
    return command;
}

/* ---- answers ---- */

static void print_step(const uint64_t *out)
{
    switch (out[LACE_KIND]) {
    case LACE_RUN:
        printf(",run");
        break;
    case LACE_EXITED:
        printf(",exited,%llu", (unsigned long long)out[LACE_OWN_STEPS]);
        break;
    default:
        printf(",%s,%llu", out[LACE_KIND] == LACE_DONE ? "done" : "fault", (unsigned long long)out[LACE_GATE_NUMBER]);
        for (int k = 0; k < 4; k++)
            printf(",%llu", (unsigned long long)out[LACE_OUTPUT + k]);
        printf(",%llu", (unsigned long long)out[LACE_OWN_STEPS]);
    }
}

static void print_report(const uint64_t *report)
{
    printf(",%c%llu,%c", (char)report[LACE_LABEL_LETTER], (unsigned long long)report[LACE_LABEL_LINE], (char)report[LACE_CELL_LETTER]);
    if (report[LACE_CELL_LETTER] != 'G')
        printf("%llu", (unsigned long long)report[LACE_CELL_NUMBER]);
    printf(",%c,%llu,%llu,%llu", (char)report[LACE_SWAP], (unsigned long long)report[LACE_LAST_GATE_NUMBER],
           (unsigned long long)report[LACE_NOTED], (unsigned long long)report[LACE_NOTED_COUNT]);
}

/* a step with a loan that is a word too short is refused and changes nothing */
static void ask_short(uint32_t process)
{
    static uint64_t before[LACE_BLOCK_WORDS];
    static uint64_t lent[LACE_LOAN_WORDS_MAX];
    uint64_t out[LACE_STEP_WORDS];
    size_t words = lace_loan_words(block, LACE_BLOCK_WORDS);
    if (words == 0)
        return;
    memcpy(before, block, sizeof before);
    memcpy(lent, loan, sizeof lent);
    fill(out, LACE_STEP_WORDS);
    if (lace_step(block, LACE_BLOCK_WORDS, loan, words - 1, process, out, LACE_STEP_WORDS) == LACE_TAKEN)
        kept = 0;
    for (size_t k = 0; k < LACE_STEP_WORDS; k++)
        if (out[k] != PATTERN)
            kept = 0;
    if (memcmp(before, block, sizeof before) != 0 || memcmp(lent, loan, sizeof lent) != 0)
        kept = 0;
}

/* carries out a command and prints its line; `text` is that of a change */
static void answer(const struct command *command, const uint8_t *text, size_t text_bytes)
{
    const uint32_t *n = command->numbers;
    uint64_t out[LACE_STEP_WORDS] = { 0 };
    uint64_t report[LACE_REPORT_WORDS] = { 0 };
    size_t words = lace_loan_words(block, LACE_BLOCK_WORDS);
    uint32_t status;
    printf("%s,%lu", command->verb, (unsigned long)n[0]);
    switch (command->verb[0]) {
    case 'w':
        status = lace_request_exit(block, LACE_BLOCK_WORDS, n[0]);
        if (status == LACE_TAKEN)
            printf(",taken");
        break;
    case 's':
        status = lace_step(block, LACE_BLOCK_WORDS, loan, words, n[0], out, LACE_STEP_WORDS);
        if (status == LACE_TAKEN)
            print_step(out);
        break;
    case 't':
        status = lace_trace(block, LACE_BLOCK_WORDS, loan, words, n[0], out, LACE_STEP_WORDS, report, LACE_REPORT_WORDS);
        if (status == LACE_TAKEN) {
            print_report(report);
            print_step(out);
        }
        break;
    case 'l':
        status = lace_read(block, LACE_BLOCK_WORDS, n[0], out, 1);
        if (status == LACE_TAKEN)
            printf(",%llu", (unsigned long long)out[LACE_VALUE]);
        break;
    default:
        if (command->verb[1] == 'a') {
            status = lace_call(block, LACE_BLOCK_WORDS, n[0], n[1], n[2], n[3], n[4], n[5]);
        } else {
            status = lace_change(block, LACE_BLOCK_WORDS, n[0], n[1], text, text_bytes, out, 1);
        }
        if (status == LACE_TAKEN)
            printf(",taken");
    }
    if (status != LACE_TAKEN) {
        printf(",refused,%lu", (unsigned long)status);
        if (strcmp(command->verb, "change") == 0)
            printf(",%llu", (unsigned long long)out[LACE_LINE]);
    }
    printf("\n");
}

/* the place past a line, `end` where no line end follows */
static const uint8_t *line_after(const uint8_t *at, const uint8_t *end)
{
    const uint8_t *found = memchr(at, '\n', (size_t)(end - at));
    return found ? found + 1 : end;
}

static void run(const uint8_t *calls, size_t length, uint64_t seed, int is_short)
{
    const uint8_t *at = calls;
    const uint8_t *end = calls + length;
    unsigned long line = 1;
    while (at < end) {
        const uint8_t *next = line_after(at, end);
        const uint8_t *text = next;
        struct command command = { NULL, { 0 } };
        if (next[-1] == '\n')
            command = parse(at, next - 1);
        for (size_t k = 0; seed && k < lace_loan_words(block, LACE_BLOCK_WORDS); k++) {
            seed ^= seed << 13;
            seed ^= seed >> 7;
            seed ^= seed << 17;
            loan[k] = seed;
        }
        if (!command.verb) {
            printf("line,%lu,refused,2\n", line++);
            at = next;
            continue;
        }
        line++;
        if (strcmp(command.verb, "change") == 0) {
            for (uint32_t k = 0; k < command.numbers[2] && next < end; k++, line++)
                next = line_after(next, end);
        }
        if (is_short && (command.verb[0] == 's' || command.verb[0] == 't'))
            ask_short(command.numbers[0]);
        answer(&command, text, (size_t)(next - text));
        look_around();
        at = next;
    }
}

int main(int count, char **words)
{
    static uint8_t card[LACE_TEXT_BYTES + 1];
    static uint8_t calls[CALLS_BYTES + 1];
    size_t card_bytes = read_file("card.txt", card, LACE_TEXT_BYTES);
    size_t calls_bytes = read_file("calls.txt", calls, CALLS_BYTES);
    uint64_t seed = count > 1 ? strtoull(words[1], NULL, 10) : 0;
    int is_short = count > 2;
    uint64_t line = 0;
    uint32_t status;
    fill(block_room, sizeof block_room / sizeof *block_room);
    fill(loan_room, sizeof loan_room / sizeof *loan_room);
    status = lace_open(card, card_bytes, block, LACE_BLOCK_WORDS, &line, 1);
    if (status != LACE_TAKEN)
        printf("card,refused,%lu,%llu\n", (unsigned long)status, (unsigned long long)line);
    else if (calls_bytes > CALLS_BYTES)
        printf("calls,refused,1\n");
    else
        run(calls, calls_bytes, seed, is_short);
    look_around();
    fprintf(stderr, "the loan is %s, seed %llu%s\n", kept ? "kept" : "not kept", (unsigned long long)seed, is_short ? ", short first" : "");
    return fflush(stdout) == 0 ? 0 : 1;
}
