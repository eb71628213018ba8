/*
 * The drive card for C programs: one table of shared variables under the wait-free universal construction of Chuong, Ellen and Ramachandran
 * (2010). Link with liblace_card.a (x86-64, System V calling convention); ./library builds both into one folder.
 *
 * The card stands in memory that you lend at each call: a block of LACE_BLOCK_WORDS words, and a loan of LACE_LOAN_WORDS(p, w) words for a
 * card with p processes and weight w. What a block's words mean is not part of this header. The library has no memory of its own, allocates
 * nothing, and calls memcpy and memset alone; opening a card takes 17 KB of stack, lace_write 13 KB, a change 3 KB, the others at most 2 KB
 * (seen, not proved). Two cards are two blocks and two loans. One card is used by one caller at a time: to your processor a call is many accesses,
 * so an interrupt may not step a card whose step it interrupted.
 *
 * Proved, for all values of the arguments: what every function returns and leaves in each array, and that it ends. No number, no content of a
 * block, a loan or a text, and no length makes a call do anything undefined. Assumed of you, and checked by nothing:
 *   - each pointer is valid for as many elements as the length behind it says, and is aligned for them. With length 0 it may be NULL.
 *   - memory that a call may write (every pointer that is not to const) overlaps no other memory of the same call.
 * A block or loan that you altered does no harm beyond its own card: every answer is still a number below, and nothing past the lengths is
 * touched. Answers are those of the card as long as block and loan are handed back as the last call left them (docs/STATEMENTS.md).
 *
 * Answers. Every request returns a status: LACE_TAKEN (0), or the number of the refusal. On refusal the block, the loan, the text and all of
 * `out` are as they were, but for the line that an opening or a change tells (and an opening that refuses a text leaves the empty card, one
 * that refuses terms leaves no machines).
 * Values go to `out`, an array of yours with `out_words` places, from out[0] on: as many as it has places for; places behind them keep what
 * they held. A caller that wants none of them passes NULL and 0.
 */
#ifndef LACE_CARD_H
#define LACE_CARD_H

#include <stddef.h>
#include <stdint.h>

#if !defined(__x86_64__) && !defined(LACE_ANY_MACHINE)
#error "liblace_card.a is code for x86-64 (LACE_ANY_MACHINE lets this header be read on others)"
#endif

#ifdef __cplusplus
extern "C" {
#endif

/* ---- sizes ---- */

#define LACE_PROCESSES 8      /* processes of a card, at most */
#define LACE_VARIABLES 64     /* variables, at most */
#define LACE_PROGRAMS 8       /* programs (sheets), at most */
#define LACE_WEIGHT 32        /* weight w of a card, at most */
#define LACE_TEXT_BYTES 16384 /* bytes of a card text, at most */
#define LACE_WRITTEN_BYTES 6440 /* bytes that lace_write gives back of a card that lace_open took, at most */

/* Words of 64 bits: of a block; of the loan of a card with p processes and weight w, also as a constant expression; of any card's loan. */
#define LACE_BLOCK_WORDS 1456
#define LACE_LOAN_WORDS(p, w) ((size_t)3 * (p) * (w))
#define LACE_LOAN_WORDS_MAX LACE_LOAN_WORDS(LACE_PROCESSES, LACE_WEIGHT)

/* Places of `out` and of `report` that a call can fill. */
#define LACE_STEP_WORDS 7   /* lace_step, lace_trace */
#define LACE_REPORT_WORDS 8 /* lace_trace */
#define LACE_RUN_WORDS 5    /* lace_run */

/* Words of 32 bits in the table of calls of lace_run: a program and its four inputs, for each process. */
#define LACE_CALL_WORDS 5

/* Machines that share one processor: how many, at most; steps of a turn, at most; words of 64 bits of their allowance, and of the terms of each. */
#define LACE_MACHINES 4
#define LACE_TURN_STEPS 100000
#define LACE_ALLOWANCE_WORDS 14
#define LACE_TERM_WORDS 2

/* LACE_LOAN_WORDS as a function; 0 where no card has p processes and weight w. */
static inline size_t lace_loan_words_for(uint32_t processes, uint32_t weight)
{
    return processes <= LACE_PROCESSES && weight <= LACE_WEIGHT ? LACE_LOAN_WORDS(processes, weight) : 0;
}

/* The same three numbers, computed by the library: what its functions go by. */
size_t lace_block_words(void);
size_t lace_loan_size(uint32_t processes, uint32_t weight);

/* How many words the loan of the card in this block takes: what lace_step and lace_trace ask for. 0 of a block that is too short. */
size_t lace_loan_words(const uint64_t *block, size_t block_words);

/* ---- numbers ---- */

/* What a request returns. A number and its meaning stand in the same place in docs/FORMATS.md ('Refusals'). 17 is missing, as no function here answers
   with it: it is of a listing of schedules. */
enum lace_status {
    LACE_TAKEN = 0,                 /* taken, accepted, read, written */
    LACE_TEXT_TOO_LONG = 1,         /* the text has more than LACE_TEXT_BYTES bytes */
    LACE_LINE_MALFORMED = 2,        /* a line of the wrong form, missing, or left over */
    LACE_NUMBER_OUT_OF_RANGE = 3,   /* a number out of range in a card, var or sheet line */
    LACE_UNKNOWN_CODE = 4,          /* no such code */
    LACE_NO_PROCESS = 5,            /* process not below p; or a machine that is not there */
    LACE_NO_PROGRAM = 6,            /* program (sheet) not below s */
    LACE_BUSY = 7,                  /* the process has an operation under way */
    LACE_NOT_BUSY = 8,              /* the process has none under way */
    LACE_NO_VARIABLE = 9,           /* variable not below n */
    LACE_LIMIT_REACHED = 10,        /* accepted steps have reached the limit */
    LACE_TOO_SHORT = 11,            /* block, loan, text buffer, allowance or terms too short */
    LACE_OPERAND_OUT_OF_RANGE = 12, /* operand out of range */
    LACE_UNUSED_OPERAND = 13,       /* unused operand that is not 0 */
    LACE_TOO_HEAVY = 14,            /* a program of too great a weight */
    LACE_NOT_AHEAD = 15,            /* gate number of a change not above the gate's */
    LACE_UNSETTLED = 16,            /* the last change of that program is still under way */
    LACE_BAD_TERMS = 18,            /* number of machines, steps of a turn, shares or ceilings outside the rules */
    LACE_NO_ALLOWANCE = 19          /* a step without allowance in this turn */
};

/* The kind of an accepted step's answer, in out[LACE_KIND], and where its other numbers stand. */
enum lace_kind {
    LACE_RUN = 0,   /* the operation goes on; out[LACE_KIND] alone is filled */
    LACE_DONE = 1,  /* it is done: own steps, gate number and outputs are filled */
    LACE_FAULT = 2, /* it ended as a fault: the same, the outputs are 0 */
    LACE_EXITED = 3 /* it was withdrawn, and has not taken effect: own steps are filled */
};
enum lace_step_place {
    LACE_KIND = 0,
    LACE_OWN_STEPS = 1,   /* how many accepted steps of its own the operation took */
    LACE_GATE_NUMBER = 2, /* its place in the order in which operations took effect */
    LACE_OUTPUT = 3       /* output k stands at LACE_OUTPUT + k, k from 0 to 3 */
};

/* What is told of a traced step, in report[]. */
enum lace_report_place {
    LACE_LABEL_LETTER = 0,     /* 'P', 'C', 'H' or 'F': the procedure of the paper .. */
    LACE_LABEL_LINE = 1,       /* .. and the number of the line whose access was made */
    LACE_CELL_LETTER = 2,      /* 'G' gate, 'A' announcement, 'R' record: the cell touched .. */
    LACE_CELL_NUMBER = 3,      /* .. and of which process or variable; 0 of the gate */
    LACE_SWAP = 4,             /* '1' a swap that won, '0' one that lost, '-' no swap */
    LACE_LAST_GATE_NUMBER = 5, /* the gate number that the operation last read */
    LACE_NOTED = 6,            /* variables that its helping has noted, bit v for variable v */
    LACE_NOTED_COUNT = 7       /* how many these are */
};

/* What a run over a schedule came to, in out[]. */
enum lace_run_place {
    LACE_ACCEPTED = 0, /* steps that were accepted; the others altered and counted nothing */
    LACE_DONES = 1,    /* operations that were done, .. */
    LACE_FAULTS = 2,   /* .. that ended as a fault, .. */
    LACE_EXITS = 3,    /* .. and that exited */
    LACE_LONGEST = 4   /* the most own steps that one of them took */
};

/* What stands in the words of an allowance: of machine m at LACE_SHARE + 3 * m, LACE_CEILING + 3 * m and LACE_USED + 3 * m. */
enum lace_allowance_place {
    LACE_TURN = 0,          /* steps of a turn, for all machines together */
    LACE_MACHINE_COUNT = 1, /* how many machines there are */
    LACE_SHARE = 2,         /* steps of a turn that are kept for the machine */
    LACE_CEILING = 3,       /* steps of a turn that it has at most */
    LACE_USED = 4           /* steps that it has made in this turn */
};

/* Where the others stand, each in out[0]: the line of a refused text, the value of a read, the length of a written text. */
#define LACE_LINE 0
#define LACE_VALUE 0
#define LACE_LENGTH 0

/* ---- requests ---- */

/* Opens a card text into a block. Refusals: 1, 2, 3, 4, 12, 13, 14 of the text, with out[LACE_LINE] its line from 1 on (0 with 1) and the empty
   card in the block; then 11, line 0, where block_words is below LACE_BLOCK_WORDS (the block is left as it was). Any bytes may stand in the
   block before. The words behind the first LACE_BLOCK_WORDS are never touched, here and below. */
uint32_t lace_open(const uint8_t *text, size_t text_bytes, uint64_t *block, size_t block_words, uint64_t *out, size_t out_words);

/* Process `process` takes up `program` with four inputs. Refusals 5, 6, 7. It takes no step. */
uint32_t lace_call(uint64_t *block, size_t block_words, uint32_t process, uint32_t program, uint32_t input0, uint32_t input1,
                   uint32_t input2, uint32_t input3);

/* Asks that the operation of a process be withdrawn. Refusals 5, 8. It lasts until the operation returns, as LACE_EXITED if it was withdrawn in
   time, else as LACE_DONE or LACE_FAULT. */
uint32_t lace_request_exit(uint64_t *block, size_t block_words, uint32_t process);

/* One step of a process: one shared access, and the local work up to the next. Refusals 5, 8, 10; then 11, where loan_words is below
   lace_loan_words. out[LACE_KIND] and behind it as enum lace_kind says. An operation returns within lace_wait of its own steps, two more
   if its exit was asked for. */
uint32_t lace_step(uint64_t *block, size_t block_words, uint64_t *loan, size_t loan_words, uint32_t process, uint64_t *out,
                   size_t out_words);

/* The same step, and what is told of its access in report[], by enum lace_report_place. */
uint32_t lace_trace(uint64_t *block, size_t block_words, uint64_t *loan, size_t loan_words, uint32_t process, uint64_t *out,
                    size_t out_words, uint64_t *report, size_t report_words);

/* Many steps in one call: one for each byte of `schedule`, which names its process. A process whose operation returns is called again at once, with
   calls[5 * process], a program, and the four inputs behind it; without all five words in the table it is left idle. out[] by enum lace_run_place. A
   step that is refused alters and counts nothing. Refusal 11 where loan_words is below lace_loan_words: then no step is accepted. */
uint32_t lace_run(uint64_t *block, size_t block_words, uint64_t *loan, size_t loan_words, const uint32_t *calls, size_t calls_words,
                  const uint8_t *schedule, size_t schedule_bytes, uint64_t *out, size_t out_words);

/* What a variable shows: out[LACE_VALUE]. Refusal 9. */
uint32_t lace_read(const uint64_t *block, size_t block_words, uint32_t variable, uint64_t *out, size_t out_words);

/* Program `program` has this text (`sheet,..` and its lines) for operations numbered `from` or later. Refusals 6; 1, 2, 3, 4, 12, 13, 14 of the
   text; 15, 16; out[LACE_LINE] is the text's line, or 0 with 1, 6, 15 and 16. */
uint32_t lace_change(uint64_t *block, size_t block_words, uint32_t program, uint64_t from, const uint8_t *text, size_t text_bytes,
                     uint64_t *out, size_t out_words);

/* The text that the card was opened from, after any steps: out[LACE_LENGTH] bytes, bytes behind them are kept. Refusal 11 where text_bytes is
   below that length; LACE_WRITTEN_BYTES are enough for every card that was opened. */
uint32_t lace_write(const uint64_t *block, size_t block_words, uint8_t *text, size_t text_bytes, uint64_t *out, size_t out_words);

/* ---- machines that share one processor ---- */

/*
 * Up to LACE_MACHINES machines, numbered from 0, each with a card of its own. While their shaft goes round once the processor makes at most `turn_steps` steps
 * for all of them. A step within its machine's share always has its allowance. Beyond the share and below the ceiling it has one where turn_steps is above the
 * sum, over all machines, of the larger of share and steps used. A step without one is refused with LACE_NO_ALLOWANCE, which is tested last, changes nothing,
 * and may be asked for again. Without such refusals each machine answers as it would alone (proved: docs/STATEMENTS.md, order 14).
 *
 * `allowance` is an array of LACE_ALLOWANCE_WORDS words; a shorter one holds no machines, and is left as it is. `blocks` are the blocks one behind the other:
 * that of machine m begins at word LACE_BLOCK_WORDS * m. `loans` are the loans: that of machine m begins at word stride * m and has `stride` words, as many
 * as the card with the longest loan takes. Of a block or loan that runs past the end of its array there is as much as the array has. No request touches
 * the words of another machine. Only steps look at loans, and only opening, turns and steps write to `allowance`.
 */

/* Opens machines 0 to count - 1, with no step used: terms[2 * m] is the share of machine m, terms[2 * m + 1] its ceiling. Refusals: 11 where
   allowance_words is below LACE_ALLOWANCE_WORDS or terms_words below 2 * count, and the allowance is left as it was; then 18, which leaves no machines,
   where count is not from 1 to LACE_MACHINES, turn_steps not from 1 to LACE_TURN_STEPS, a share above its ceiling, or the sum of the shares above
   turn_steps. */
uint32_t lace_machines_open(uint64_t *allowance, size_t allowance_words, uint32_t count, uint64_t turn_steps, const uint64_t *terms,
                            size_t terms_words);

/* A new turn: no machine has used a step. It is never refused. */
void lace_machines_turn(uint64_t *allowance, size_t allowance_words);

/* lace_open into the block of a machine, whether or not it is open; 11 where its block is not whole. */
uint32_t lace_machines_open_card(uint64_t *blocks, size_t blocks_words, uint32_t machine, const uint8_t *text, size_t text_bytes, uint64_t *out,
                                 size_t out_words);

/* The requests of one card, to machine `machine`: the same answers and the same numbers in `out` and `report`. Besides, 5 for a machine that is not
   there, tested first (out[LACE_LINE] of a change is 0 then), and 19 of lace_machines_step and lace_machines_trace. */
uint32_t lace_machines_call(const uint64_t *allowance, size_t allowance_words, uint64_t *blocks, size_t blocks_words, uint32_t machine,
                            uint32_t process, uint32_t program, uint32_t input0, uint32_t input1, uint32_t input2, uint32_t input3);
uint32_t lace_machines_request_exit(const uint64_t *allowance, size_t allowance_words, uint64_t *blocks, size_t blocks_words, uint32_t machine,
                                    uint32_t process);
uint32_t lace_machines_step(uint64_t *allowance, size_t allowance_words, uint64_t *blocks, size_t blocks_words, uint64_t *loans,
                            size_t loans_words, uint32_t stride, uint32_t machine, uint32_t process, uint64_t *out, size_t out_words);
uint32_t lace_machines_trace(uint64_t *allowance, size_t allowance_words, uint64_t *blocks, size_t blocks_words, uint64_t *loans,
                             size_t loans_words, uint32_t stride, uint32_t machine, uint32_t process, uint64_t *out, size_t out_words,
                             uint64_t *report, size_t report_words);
uint32_t lace_machines_read(const uint64_t *allowance, size_t allowance_words, const uint64_t *blocks, size_t blocks_words, uint32_t machine,
                            uint32_t variable, uint64_t *out, size_t out_words);
uint32_t lace_machines_change(const uint64_t *allowance, size_t allowance_words, uint64_t *blocks, size_t blocks_words, uint32_t machine,
                              uint32_t program, uint64_t from, const uint8_t *text, size_t text_bytes, uint64_t *out, size_t out_words);

/* ---- the longest wait ---- */

/* Within how many of its own steps an operation is back, without a request to exit: for p processes and weight w, and on the card in a block.
   0 where no card has p and w, or there is none in the block. */
uint64_t lace_wait_for(uint32_t processes, uint32_t weight);
uint64_t lace_wait(const uint64_t *block, size_t block_words);

#ifdef __cplusplus
}
#endif

#endif
