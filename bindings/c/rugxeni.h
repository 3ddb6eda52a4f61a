/* The boundary of the static library, for C and C++.
 * Written by `python3 bindings/boundary.py --write`; the gate compares.
 *
 * A slice goes over as a pointer and a length in elements: `run, run_len`. One that is not const is written, and must
 * overlap no other slice of the call. Nothing else is asked of the slices: contents and lengths may be any, and every call
 * answers. One of length 0 may be NULL. The comment beside a slice is its least length, m, a, g and t being the sheet's
 * instances, accounts, registers and transactions; a shorter one is answered with RUGXENI_BUFFER_SHORT, unless another
 * refusal stands there. The library owns no memory and keeps nothing between calls.
 *
 * Every call returns 0 where it did what it says, a refusal's number, or 255 where nothing is left: no byte to be read, or
 * no frame of the sheet to be loaded. What is refused changes nothing but `told`.
 *
 * `told` gets two numbers, as far as it is long: a refusal's place, or what the call tells in its stead (where the next
 * frame begins, how much was written), else 0; then a reading's value or a frame's kind, else 0.
 *
 * `numbers` are the 22 that a ledger is: m, a, g, t, the stage of loading, the transactions loaded, and the accepted
 * blocks of sixteen instances. All 0 they are a fresh ledger. `sheet`, `ranks`, `cuts`, `cites` and `good` belong to it:
 * each call is lent what the one before it left there. `counts`, `table` and `order` are working space.
 */
#ifndef RUGXENI_H
#define RUGXENI_H

#include <stddef.h>
#include <stdint.h>

#ifdef __cplusplus
extern "C" {
#endif

enum rugxeni_answer {
    RUGXENI_DONE = 0,
    /* Place: frame's offset. The frame is cut off, or no byte is left before the sheet is complete. */
    RUGXENI_SHORT = 1,
    /* Place: frame's offset. L is not 2 to 8,194. */
    RUGXENI_BAD_LENGTH = 2,
    /* Place: frame's offset. A kind that is unknown or not due; 0 as the place where values or a reading come before
     * the sheet is complete. */
    RUGXENI_KIND_NOT_DUE = 3,
    /* Place: frame's offset. The body's length is not what its kind and counts say. */
    RUGXENI_BODY_LENGTH = 4,
    /* Place: frame's offset. A field out of range; a count above 32 in a block. Of values, with place 0: more than 32
     * citations, or an unused cut entry that is not 0. */
    RUGXENI_OUT_OF_RANGE = 5,
    /* Place: frame's offset. An account twice among the debits or among the credits. */
    RUGXENI_ACCOUNT_TWICE = 6,
    /* Place: frame's offset. Debits and credits differ in sum. */
    RUGXENI_SUMS_DIFFER = 7,
    /* Place: 0. No such instance. */
    RUGXENI_NO_INSTANCE = 8,
    /* Place: the number due. Another sequence number than the one due. */
    RUGXENI_NOT_NUMBER_DUE = 9,
    /* Place: the last rank, 0 if none. A rank that is not above it. */
    RUGXENI_RANK_NOT_ABOVE = 10,
    /* Place: the entry. The own entry is not the sequence number less 1, or an entry is below that of the instance's
     * block before. */
    RUGXENI_ENTRY_BACK = 11,
    /* Place: the entry. More blocks than were accepted of that instance. */
    RUGXENI_ENTRY_AHEAD = 12,
    /* Place: the list place. No such transaction. */
    RUGXENI_NO_TRANSACTION = 13,
    /* Place: the list place. It has no part in this instance. */
    RUGXENI_NO_PART = 14,
    /* Place: the list place. This instance cited it before. */
    RUGXENI_CITED_BEFORE = 15,
    /* Place: the least length. A lent buffer is too short (BUFFERS.md); `readrun` never meets it. */
    RUGXENI_BUFFER_SHORT = 16,
    /* Place: 0. The instance has 128 blocks. */
    RUGXENI_LOG_FULL = 17,
    RUGXENI_NOTHING_LEFT = 255
};

/* Settlements, as `statuses` has them. */
enum rugxeni_settlement { RUGXENI_OPEN = 0, RUGXENI_PAID = 1, RUGXENI_RETURNED = 2 };

/* Kinds of a transaction, and codes of its operations. */
enum rugxeni_kind { RUGXENI_PAYMENT = 0, RUGXENI_CONTRACT = 1 };
enum rugxeni_code { RUGXENI_IS_EQUAL = 0, RUGXENI_IS_AT_LEAST = 1, RUGXENI_SET = 2, RUGXENI_ADD = 3, RUGXENI_SUBTRACT = 4 };

/* Sizes. Those of buffers suffice for every sheet. */
#define RUGXENI_NUMBERS 22 /* the numbers that a ledger is */
#define RUGXENI_ENDING_MAX 7 /* refusals up to this end a reading; after others the next block may follow */
#define RUGXENI_INSTANCES_MAX 16 /* m */
#define RUGXENI_ACCOUNTS_MAX 1024 /* a */
#define RUGXENI_REGISTERS_MAX 64 /* g */
#define RUGXENI_TRANSACTIONS_MAX 1024 /* t */
#define RUGXENI_BLOCKS_MAX 128 /* blocks of one instance */
#define RUGXENI_CITATIONS_MAX 32 /* citations of one block */
#define RUGXENI_LOG_MAX 2048 /* blocks in the global log */
#define RUGXENI_FRAME_MAX 8198 /* bytes of the longest frame */
#define RUGXENI_RUN_MAX 65536 /* bytes of the longest run that has a reading */
#define RUGXENI_TEXT_MAX 262144 /* bytes of a reading's text */
#define RUGXENI_SHEET_MAX 110592 /* places of `sheet` for the largest sheet */
#define RUGXENI_RANKS_MAX 2048 /* places of `ranks` for the largest sheet */
#define RUGXENI_CUTS_MAX 32768 /* places of `cuts` for the largest sheet */
#define RUGXENI_CITES_MAX 65536 /* places of `cites` for the largest sheet */
#define RUGXENI_GOOD_MAX 65536 /* places of `good` for the largest sheet */
#define RUGXENI_COUNTS_MAX 2048 /* places of `counts` for the largest sheet */
#define RUGXENI_TABLE_MAX 1024 /* places of `table` for the largest sheet */
#define RUGXENI_ORDER_MAX 2048 /* places of `order` for the largest sheet */

/* The frame at the offset `at`. Returns 0, and in `told` where the next frame begins and the frame's kind; 1 or 2, and
 * the offset, where no whole frame stands there; or 255 where no byte is left. */
uint16_t rugxeni_frame(
    const uint8_t *bytes, size_t bytes_len, /* 0 */
    size_t at,
    uint64_t *told, size_t told_len);       /* 0: as much is told as fits */

/* The frame at the offset `at` of a run. Returns 0, and in `told` where the next frame begins; a refusal's number, and
 * its place; or 255 once the sheet is complete. */
uint16_t rugxeni_load(
    uint16_t *numbers, size_t numbers_len, /* 22 */
    const uint8_t *run, size_t run_len,    /* 0 */
    size_t at,
    uint8_t *sheet, size_t sheet_len,      /* 8a + 100t once the header is known, 0 before */
    uint64_t *told, size_t told_len);      /* 0: as much is told as fits */

/* The frame at the offset `at` is offered. Returns 0 where it is accepted, a refusal's number, with its place in
 * `told`, or 255 where no byte is left. */
uint16_t rugxeni_offer_frame(
    uint16_t *numbers, size_t numbers_len,  /* 22 */
    const uint8_t *sheet, size_t sheet_len, /* 8a + 100t */
    uint32_t *ranks, size_t ranks_len,      /* 128m */
    uint16_t *cuts, size_t cuts_len,        /* 2048m */
    uint16_t *cites, size_t cites_len,      /* 4096m */
    uint8_t *good, size_t good_len,         /* 4096m */
    uint32_t *counts, size_t counts_len,    /* 2t */
    uint8_t *table, size_t table_len,       /* t */
    uint16_t *order, size_t order_len,      /* 128m */
    const uint8_t *bytes, size_t bytes_len, /* 0 */
    size_t at,
    uint64_t *told, size_t told_len);       /* 0: as much is told as fits */

/* A block's values are offered, the cut as its first sixteen entries. Returns as for a frame. */
uint16_t rugxeni_offer_block(
    uint16_t *numbers, size_t numbers_len,           /* 22 */
    const uint8_t *sheet, size_t sheet_len,          /* 8a + 100t */
    uint32_t *ranks, size_t ranks_len,               /* 128m */
    uint16_t *cuts, size_t cuts_len,                 /* 2048m */
    uint16_t *cites, size_t cites_len,               /* 4096m */
    uint8_t *good, size_t good_len,                  /* 4096m */
    uint32_t *counts, size_t counts_len,             /* 2t */
    uint8_t *table, size_t table_len,                /* t */
    uint16_t *order, size_t order_len,               /* 128m */
    uint16_t instance,
    uint16_t sequence,
    uint32_t rank,
    const uint16_t *cut, size_t cut_len,             /* 0: its first sixteen entries count, 0 where there are fewer */
    const uint16_t *citations, size_t citations_len, /* 0: more than 32 are refusal 5 */
    uint64_t *told, size_t told_len);                /* 0: as much is told as fits */

/* The global log, as instances and sequence numbers; its length is the second number told.
 *
 * A reading of the full view. The call returns 0, or a refusal's number with its place in `told`. */
uint16_t rugxeni_log(
    const uint16_t *numbers, size_t numbers_len, /* 22 */
    const uint32_t *ranks, size_t ranks_len,     /* 128m */
    uint16_t *instances, size_t instances_len,   /* one place for each block in the log, at most 2,048 */
    uint16_t *sequences, size_t sequences_len,   /* one place for each block in the log, at most 2,048 */
    uint64_t *told, size_t told_len);            /* 0: as much is told as fits */

/* The settlement of every transaction: 0 open, 1 paid, 2 returned.
 *
 * A reading of the full view. The call returns 0, or a refusal's number with its place in `told`. */
uint16_t rugxeni_settlements(
    const uint16_t *numbers, size_t numbers_len, /* 22 */
    const uint8_t *sheet, size_t sheet_len,      /* 8a + 100t */
    const uint32_t *ranks, size_t ranks_len,     /* 128m */
    const uint16_t *cites, size_t cites_len,     /* 4096m */
    const uint8_t *good, size_t good_len,        /* 4096m */
    uint32_t *counts, size_t counts_len,         /* 2t */
    uint8_t *table, size_t table_len,            /* t */
    uint16_t *order, size_t order_len,           /* 128m */
    uint8_t *statuses, size_t statuses_len,      /* t */
    uint64_t *told, size_t told_len);            /* 0: as much is told as fits */

/* The free and the held amount of every account.
 *
 * A reading of the full view. The call returns 0, or a refusal's number with its place in `told`. */
uint16_t rugxeni_accounts(
    const uint16_t *numbers, size_t numbers_len, /* 22 */
    const uint8_t *sheet, size_t sheet_len,      /* 8a + 100t */
    const uint32_t *ranks, size_t ranks_len,     /* 128m */
    const uint16_t *cites, size_t cites_len,     /* 4096m */
    const uint8_t *good, size_t good_len,        /* 4096m */
    uint32_t *counts, size_t counts_len,         /* 2t */
    uint8_t *table, size_t table_len,            /* t */
    uint16_t *order, size_t order_len,           /* 128m */
    uint64_t *free, size_t free_len,             /* a */
    uint64_t *held, size_t held_len,             /* a */
    uint64_t *told, size_t told_len);            /* 0: as much is told as fits */

/* The registers.
 *
 * A reading of the full view. The call returns 0, or a refusal's number with its place in `told`. */
uint16_t rugxeni_registers(
    const uint16_t *numbers, size_t numbers_len, /* 22 */
    const uint8_t *sheet, size_t sheet_len,      /* 8a + 100t */
    const uint32_t *ranks, size_t ranks_len,     /* 128m */
    const uint16_t *cites, size_t cites_len,     /* 4096m */
    const uint8_t *good, size_t good_len,        /* 4096m */
    uint32_t *counts, size_t counts_len,         /* 2t */
    uint8_t *table, size_t table_len,            /* t */
    uint16_t *order, size_t order_len,           /* 128m */
    uint32_t *values, size_t values_len,         /* g */
    uint64_t *told, size_t told_len);            /* 0: as much is told as fits */

/* The share as the second number told: settled transactions in thousandths of all, to the nearest and a tie to the even
 * figure; 1000 where there are none.
 *
 * A reading of the full view. The call returns 0, or a refusal's number with its place in `told`. */
uint16_t rugxeni_share(
    const uint16_t *numbers, size_t numbers_len, /* 22 */
    const uint8_t *sheet, size_t sheet_len,      /* 8a + 100t */
    const uint32_t *ranks, size_t ranks_len,     /* 128m */
    const uint16_t *cites, size_t cites_len,     /* 4096m */
    const uint8_t *good, size_t good_len,        /* 4096m */
    uint32_t *counts, size_t counts_len,         /* 2t */
    uint8_t *table, size_t table_len,            /* t */
    uint16_t *order, size_t order_len,           /* 128m */
    uint64_t *told, size_t told_len);            /* 0: as much is told as fits */

/* What `readrun` prints of a run, written to the front of `out`. Returns 0, and in `told` the text's length; or 16, and
 * the least length of the first short buffer, nothing being written. The buffers are as long as the largest sheet needs
 * them, and `out` has 262,144 places. They hold a ledger of the call's own: whoever keeps a ledger lends others. */
uint16_t rugxeni_report(
    const uint8_t *run, size_t run_len,  /* 0 */
    uint8_t *sheet, size_t sheet_len,    /* 110,592 */
    uint32_t *ranks, size_t ranks_len,   /* 2,048 */
    uint16_t *cuts, size_t cuts_len,     /* 32,768 */
    uint16_t *cites, size_t cites_len,   /* 65,536 */
    uint8_t *good, size_t good_len,      /* 65,536 */
    uint32_t *counts, size_t counts_len, /* 2,048 */
    uint8_t *table, size_t table_len,    /* 1,024 */
    uint16_t *order, size_t order_len,   /* 2,048 */
    uint8_t *out, size_t out_len,        /* 262,144 */
    uint64_t *told, size_t told_len);    /* 0: as much is told as fits */

/* The header: instances, accounts, registers, transactions.
 *
 * Frames, written. The numbers say the sheet so far: a frame of the sheet that was written is loaded before the next
 * one is. Each call returns 0, and in `told` how many bytes it wrote to the front of `out`; or a refusal's number with
 * its place, nothing being written. */
uint16_t rugxeni_write_header(
    const uint16_t *numbers, size_t numbers_len, /* 22 */
    uint16_t m,
    uint16_t a,
    uint16_t g,
    uint16_t t,
    uint8_t *out, size_t out_len,                /* the frame's bytes: 6 and its body, at most 8,198 */
    uint64_t *told, size_t told_len);            /* 0: as much is told as fits */

/* The starting balances, one for each account.
 *
 * Frames, written. The numbers say the sheet so far: a frame of the sheet that was written is loaded before the next
 * one is. Each call returns 0, and in `told` how many bytes it wrote to the front of `out`; or a refusal's number with
 * its place, nothing being written. */
uint16_t rugxeni_write_balances(
    const uint16_t *numbers, size_t numbers_len,   /* 22 */
    const uint64_t *balances, size_t balances_len, /* a, neither fewer nor more (refusal 4) */
    uint8_t *out, size_t out_len,                  /* the frame's bytes: 6 and its body, at most 8,198 */
    uint64_t *told, size_t told_len);              /* 0: as much is told as fits */

/* A transaction: kind 0 payment or 1 contract; d debits and c credits, each as accounts and amounts; o operations, as
 * codes, registers and values.
 *
 * Frames, written. The numbers say the sheet so far: a frame of the sheet that was written is loaded before the next
 * one is. Each call returns 0, and in `told` how many bytes it wrote to the front of `out`; or a refusal's number with
 * its place, nothing being written. */
uint16_t rugxeni_write_transaction(
    const uint16_t *numbers, size_t numbers_len,    /* 22 */
    uint8_t kind,
    uint8_t d,
    uint8_t c,
    uint8_t o,
    const uint16_t *payers, size_t payers_len,      /* d, neither fewer nor more (refusal 4) */
    const uint32_t *debits, size_t debits_len,      /* d, neither fewer nor more (refusal 4) */
    const uint16_t *payees, size_t payees_len,      /* c, neither fewer nor more (refusal 4) */
    const uint32_t *credits, size_t credits_len,    /* c, neither fewer nor more (refusal 4) */
    const uint8_t *codes, size_t codes_len,         /* o, neither fewer nor more (refusal 4) */
    const uint8_t *registers, size_t registers_len, /* o, neither fewer nor more (refusal 4) */
    const uint32_t *values, size_t values_len,      /* o, neither fewer nor more (refusal 4) */
    uint8_t *out, size_t out_len,                   /* the frame's bytes: 6 and its body, at most 8,198 */
    uint64_t *told, size_t told_len);               /* 0: as much is told as fits */

/* A block with `count` citations, the cut as its first sixteen entries.
 *
 * Frames, written. The numbers say the sheet so far: a frame of the sheet that was written is loaded before the next
 * one is. Each call returns 0, and in `told` how many bytes it wrote to the front of `out`; or a refusal's number with
 * its place, nothing being written. */
uint16_t rugxeni_write_block(
    const uint16_t *numbers, size_t numbers_len,     /* 22 */
    uint16_t instance,
    uint16_t sequence,
    uint32_t rank,
    uint16_t count,
    const uint16_t *cut, size_t cut_len,             /* 0: its first sixteen entries count, 0 where there are fewer */
    const uint16_t *citations, size_t citations_len, /* count, neither fewer nor more (refusal 4) */
    uint8_t *out, size_t out_len,                    /* the frame's bytes: 6 and its body, at most 8,198 */
    uint64_t *told, size_t told_len);                /* 0: as much is told as fits */

#ifdef __cplusplus
}
#endif

#endif
