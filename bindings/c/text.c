/* text RUN: the reading of a run, as ./readrun prints it. Status 0; 2 where the file cannot be read. */
#include "files.h"
#include "ledger.h"

#include <inttypes.h>
#include <stdio.h>

static struct ledger lent;
static uint8_t text[RUGXENI_TEXT_MAX];

int main(int argc, char **argv)
{
    struct bytes run = read_file(only_argument(argc, argv));

    /* No run is refused, whatever its bytes are: a damaged one has its refusal in the text. Only lengths can be. */
    uint16_t answer = rugxeni_report(run.at, run.length, LEND(lent.sheet), LEND(lent.ranks), LEND(lent.cuts), LEND(lent.cites),
        LEND(lent.good), LEND(lent.counts), LEND(lent.table), LEND(lent.order), LEND(text), LEND(lent.told));
    if (answer == RUGXENI_BUFFER_SHORT) {
        fprintf(stderr, "a buffer has fewer than %" PRIu64 " places\n", lent.told[0]);
        return 2;
    }
    fwrite(text, 1, lent.told[0], stdout);
    finish_output();
    return 0;
}
