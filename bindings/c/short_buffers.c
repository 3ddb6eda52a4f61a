/* A test: short buffers are answered with 16 and the least length, nothing being written; slices of length 0 may be NULL.
 * Status 0; 1 where something is another than expected, and says what. */
#include "ledger.h"

#include <inttypes.h>
#include <stdio.h>
#include <string.h>

#define EXPECT(call, number, place) expect(__LINE__, call, number, place)
#define NOTHING NULL, 0

static struct ledger lent, fresh;
static uint8_t out[RUGXENI_TEXT_MAX], untouched[RUGXENI_TEXT_MAX];
static int failed;

static void expect(int line, uint16_t answer, uint16_t number, uint64_t place)
{
    if (answer == number && lent.told[0] == place) return;
    printf("line %d: %" PRIu16 " %" PRIu64 ", not %" PRIu16 " %" PRIu64 "\n", line, answer, lent.told[0], number, place);
    failed = 1;
}

static void expect_bytes(const char *what, const void *found, const void *expected, size_t length)
{
    if (memcmp(found, expected, length) == 0) return;
    printf("%s is another than expected\n", what);
    failed = 1;
}

static uint16_t report(size_t sheet, size_t text)
{
    return rugxeni_report(NOTHING, lent.sheet, sheet, LEND(lent.ranks), LEND(lent.cuts), LEND(lent.cites), LEND(lent.good),
        LEND(lent.counts), LEND(lent.table), LEND(lent.order), out, text, LEND(lent.told));
}

static uint16_t header(size_t numbers, size_t room)
{
    return rugxeni_write_header(lent.numbers, numbers, 2, 3, 1, 2, out, room, LEND(lent.told));
}

int main(void)
{
    const char *of_nothing = "refused 1 0\n";

    EXPECT(report(RUGXENI_SHEET_MAX - 1, RUGXENI_TEXT_MAX), RUGXENI_BUFFER_SHORT, RUGXENI_SHEET_MAX);
    EXPECT(report(RUGXENI_SHEET_MAX, RUGXENI_TEXT_MAX - 1), RUGXENI_BUFFER_SHORT, RUGXENI_TEXT_MAX);
    EXPECT(rugxeni_report(NOTHING, NOTHING, NOTHING, NOTHING, NOTHING, NOTHING, NOTHING, NOTHING, NOTHING, NOTHING,
        LEND(lent.told)), RUGXENI_BUFFER_SHORT, RUGXENI_SHEET_MAX);
    EXPECT(header(RUGXENI_NUMBERS - 1, sizeof out), RUGXENI_BUFFER_SHORT, RUGXENI_NUMBERS);
    EXPECT(header(RUGXENI_NUMBERS, 13), RUGXENI_BUFFER_SHORT, 14);
    EXPECT(rugxeni_frame(NOTHING, 0, LEND(lent.told)), RUGXENI_NOTHING_LEFT, 0);
    expect_bytes("what was lent", &lent, &fresh, offsetof(struct ledger, told));
    expect_bytes("what was lent for the text", out, untouched, sizeof out);

    EXPECT(header(RUGXENI_NUMBERS, 14), RUGXENI_DONE, 14);
    EXPECT(report(RUGXENI_SHEET_MAX, RUGXENI_TEXT_MAX), RUGXENI_DONE, strlen(of_nothing));
    EXPECT(rugxeni_frame(NOTHING, 0, NOTHING), RUGXENI_NOTHING_LEFT, strlen(of_nothing));
    expect_bytes("the text of no byte", out, of_nothing, strlen(of_nothing));
    return failed;
}
