/* write_run FILE: writes document 01's run, from values: two instances, three accounts, one register, two transactions and
 * two blocks. Status 0; 1 where a value is refused; 2 where the file cannot be written. */
#include "files.h"
#include "ledger.h"

#include <inttypes.h>
#include <stdio.h>
#include <stdlib.h>

/* Where the next frame goes. */
#define OUT run + length, sizeof run - length

static struct ledger ledger;
static uint8_t run[RUGXENI_RUN_MAX];
static size_t length;

/* A frame was written at the end of the run, or refused. */
static void add(uint16_t answer)
{
    size_t begin = length;
    if (answer != RUGXENI_DONE) {
        fprintf(stderr, "refused %" PRIu16 " %" PRIu64 "\n", answer, ledger.told[0]);
        exit(1);
    }
    length += ledger.told[0];
    /* The ledger's numbers say which frame is due. Once the sheet is complete, with the blocks, this changes nothing. */
    rugxeni_load(LEND(ledger.numbers), run, length, begin, LEND(ledger.sheet), LEND(ledger.told));
}

static void add_sheet(void)
{
    add(rugxeni_write_header(LEND(ledger.numbers), 2, 3, 1, 2, OUT, LEND(ledger.told)));
    add(rugxeni_write_balances(LEND(ledger.numbers), LEND((uint64_t[]){10, 5, 0}), OUT, LEND(ledger.told)));

    /* Transaction 0: 4 from account 0 and 5 from account 1; 9 to account 2. */
    add(rugxeni_write_transaction(LEND(ledger.numbers), RUGXENI_PAYMENT, 2, 1, 0,
        LEND((uint16_t[]){0, 1}), LEND((uint32_t[]){4, 5}), LEND((uint16_t[]){2}), LEND((uint32_t[]){9}),
        NULL, 0, NULL, 0, NULL, 0, OUT, LEND(ledger.told)));

    /* Transaction 1: 6 from account 2 to account 1; register 0 is set to 7. */
    add(rugxeni_write_transaction(LEND(ledger.numbers), RUGXENI_CONTRACT, 1, 1, 1,
        LEND((uint16_t[]){2}), LEND((uint32_t[]){6}), LEND((uint16_t[]){1}), LEND((uint32_t[]){6}),
        LEND((uint8_t[]){RUGXENI_SET}), LEND((uint8_t[]){0}), LEND((uint32_t[]){7}), OUT, LEND(ledger.told)));
}

static void add_blocks(void)
{
    /* Instance 1, sequence number 1, rank 1: it has seen no block, and cites transaction 0. */
    add(rugxeni_write_block(LEND(ledger.numbers), 1, 1, 1, 1,
        LEND((uint16_t[]){0, 0}), LEND((uint16_t[]){0}), OUT, LEND(ledger.told)));

    /* Instance 0, sequence number 1, rank 2: it has seen that block, and cites both transactions. */
    add(rugxeni_write_block(LEND(ledger.numbers), 0, 1, 2, 2,
        LEND((uint16_t[]){0, 1}), LEND((uint16_t[]){0, 1}), OUT, LEND(ledger.told)));
}

int main(int argc, char **argv)
{
    const char *path = only_argument(argc, argv);
    add_sheet();
    add_blocks();
    write_file(path, run, length);
    return 0;
}
