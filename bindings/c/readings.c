/* readings RUN: a few readings of a run, call by call: its sizes, every refusal, the log's length, the accounts, the share.
 * Status 0; 1 where the run has no reading, its refusal being the last line; 2 where the file cannot be read. */
#include "files.h"
#include "ledger.h"

#include <inttypes.h>
#include <stdio.h>

enum { READ = 0, NO_READING = 1 };

static struct ledger ledger;

static int print_refusal(uint16_t number)
{
    printf("refused %" PRIu16 " %" PRIu64 "\n", number, ledger.told[0]);
    return NO_READING;
}

/* The sheet, frame by frame until nothing is left to load; the blocks begin at `*at`. */
static int load_sheet(struct bytes run, size_t *at)
{
    const uint16_t *sizes = ledger.numbers;
    for (*at = 0;; *at = ledger.told[0]) {
        uint16_t answer = rugxeni_load(LEND(ledger.numbers), run.at, run.length, *at, LEND(ledger.sheet), LEND(ledger.told));
        if (answer == RUGXENI_NOTHING_LEFT) break;
        if (answer != RUGXENI_DONE) return print_refusal(answer);
    }
    printf("run %" PRIu16 " %" PRIu16 " %" PRIu16 " %" PRIu16 "\n", sizes[0], sizes[1], sizes[2], sizes[3]);
    return READ;
}

/* The blocks, frame by frame until no byte is left. A damaged frame ends the reading; after a refused block the next follows. */
static int offer_blocks(struct bytes run, size_t at)
{
    for (;; at = ledger.told[0]) {
        uint16_t answer = rugxeni_offer_frame(LEND(ledger.numbers), LEND(ledger.sheet), LEND(ledger.ranks), LEND(ledger.cuts),
            LEND(ledger.cites), LEND(ledger.good), LEND(ledger.counts), LEND(ledger.table), LEND(ledger.order),
            run.at, run.length, at, LEND(ledger.told));
        if (answer == RUGXENI_NOTHING_LEFT) return READ;
        if (answer != RUGXENI_DONE) print_refusal(answer);
        if (answer != RUGXENI_DONE && answer <= RUGXENI_ENDING_MAX) return NO_READING;
        rugxeni_frame(run.at, run.length, at, LEND(ledger.told));
    }
}

static int print_log_length(void)
{
    static uint16_t instances[RUGXENI_LOG_MAX], sequences[RUGXENI_LOG_MAX];
    uint16_t answer = rugxeni_log(LEND(ledger.numbers), LEND(ledger.ranks), LEND(instances), LEND(sequences), LEND(ledger.told));
    if (answer != RUGXENI_DONE) return print_refusal(answer);
    printf("log of %" PRIu64 " blocks\n", ledger.told[1]);
    return READ;
}

static int print_accounts(void)
{
    static uint64_t free_amounts[RUGXENI_ACCOUNTS_MAX], held_amounts[RUGXENI_ACCOUNTS_MAX];
    uint16_t answer = rugxeni_accounts(LEND(ledger.numbers), LEND(ledger.sheet), LEND(ledger.ranks), LEND(ledger.cites),
        LEND(ledger.good), LEND(ledger.counts), LEND(ledger.table), LEND(ledger.order), LEND(free_amounts), LEND(held_amounts),
        LEND(ledger.told));
    if (answer != RUGXENI_DONE) return print_refusal(answer);
    for (uint16_t k = 0; k < ledger.numbers[1]; k++)
        printf("account %" PRIu16 " %" PRIu64 " %" PRIu64 "\n", k, free_amounts[k], held_amounts[k]);
    return READ;
}

static int print_share(void)
{
    uint16_t answer = rugxeni_share(LEND(ledger.numbers), LEND(ledger.sheet), LEND(ledger.ranks), LEND(ledger.cites),
        LEND(ledger.good), LEND(ledger.counts), LEND(ledger.table), LEND(ledger.order), LEND(ledger.told));
    if (answer != RUGXENI_DONE) return print_refusal(answer);
    printf("share %" PRIu64 "\n", ledger.told[1]);
    return READ;
}

int main(int argc, char **argv)
{
    struct bytes run = read_file(only_argument(argc, argv));
    size_t at;
    int status = NO_READING;
    if (run.length > RUGXENI_RUN_MAX)
        puts("long");
    else
        status = load_sheet(run, &at) || offer_blocks(run, at) || print_log_length() || print_accounts() || print_share();
    finish_output();
    return status;
}
