/* What the programs here lend to the library's calls. */
#ifndef LEDGER_H
#define LEDGER_H

#include "rugxeni.h"

/* An array as a call takes it: a pointer and a length. */
#define LEND(...) (__VA_ARGS__), sizeof (__VA_ARGS__) / sizeof (__VA_ARGS__)[0]

/* A ledger with room for every sheet; all 0 it is a fresh one. Too large for the stack: the programs have it static. */
struct ledger {
    uint16_t numbers[RUGXENI_NUMBERS];
    uint8_t sheet[RUGXENI_SHEET_MAX];
    uint32_t ranks[RUGXENI_RANKS_MAX];
    uint16_t cuts[RUGXENI_CUTS_MAX];
    uint16_t cites[RUGXENI_CITES_MAX];
    uint8_t good[RUGXENI_GOOD_MAX];

    /* Working space of a call. */
    uint32_t counts[RUGXENI_COUNTS_MAX];
    uint8_t table[RUGXENI_TABLE_MAX];
    uint16_t order[RUGXENI_ORDER_MAX];

    /* What a call tells: a place, a length or an offset; and a value. */
    uint64_t told[2];
};

#endif
