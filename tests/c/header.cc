// The header in C++: it compiles there, and its functions link by their C names.
#include "lace_card.h"

int main()
{
    static uint64_t block[LACE_BLOCK_WORDS];
    static uint64_t loan[LACE_LOAN_WORDS(2, 3)];
    lace_status opened = static_cast<lace_status>(lace_open(nullptr, 0, block, LACE_BLOCK_WORDS, nullptr, 0));
    bool right = opened == LACE_LINE_MALFORMED && lace_block_words() == LACE_BLOCK_WORDS && lace_loan_words_for(2, 3) == sizeof loan / sizeof *loan;
    return right && lace_step(block, LACE_BLOCK_WORDS, loan, 0, 0, nullptr, 0) == LACE_NO_PROCESS ? 0 : 1;
}
