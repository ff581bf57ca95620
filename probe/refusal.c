#include "refusal.h"

#include <inttypes.h>
#include <stdio.h>

#include "edonr.h"

struct refusal {
    uint32_t number;
    const char *name;
    const char *meaning;
};

static const struct refusal refusals[] = {
    {EDONR_REFUSED_SIZE, "EDONR_REFUSED_SIZE",
     "the digest size is none of 224, 256, 384 and 512"},
    {EDONR_REFUSED_STATE, "EDONR_REFUSED_STATE", "the hash in progress is not in form"},
    {EDONR_REFUSED_MESSAGE, "EDONR_REFUSED_MESSAGE", "the message is over 2^61 - 1 bytes"},
    {EDONR_REFUSED_OUTPUT, "EDONR_REFUSED_OUTPUT", "the output is too short"},
    {EDONR_REFUSED_WIDTH, "EDONR_REFUSED_WIDTH", "the width is neither 32 nor 64"},
    {EDONR_REFUSED_LENGTH, "EDONR_REFUSED_LENGTH", "the vectors have not their length"},
    {EDONR_REFUSED_SHEET, "EDONR_REFUSED_SHEET", "the sheet is over 4,096 bytes"},
    {EDONR_REFUSED_COMMAND, "EDONR_REFUSED_COMMAND", "a command byte is not 01 to 08"},
    {EDONR_REFUSED_CUT_COMMAND, "EDONR_REFUSED_CUT_COMMAND",
     "the sheet ends inside a command"},
    {EDONR_REFUSED_PLACE, "EDONR_REFUSED_PLACE", "a place has no vector"},
    {EDONR_REFUSED_SAME_PLACE, "EDONR_REFUSED_SAME_PLACE", "d equals s"},
    {EDONR_REFUSED_MESSAGE_COUNT, "EDONR_REFUSED_MESSAGE_COUNT",
     "there are more than 1,024 messages"},
    {EDONR_REFUSED_JOINED_LENGTH, "EDONR_REFUSED_JOINED_LENGTH",
     "the lengths do not sum to the joined length"},
    {EDONR_REFUSED_START, "EDONR_REFUSED_START",
     "a slice starts neither at a command nor at the end"},
    {EDONR_REFUSED_BIT_COUNT, "EDONR_REFUSED_BIT_COUNT",
     "the last byte is to give more than 7 bits"},
    {EDONR_REFUSED_RECORDS, "EDONR_REFUSED_RECORDS", "the last record is not whole"},
    {EDONR_REFUSED_RECORD_COUNT, "EDONR_REFUSED_RECORD_COUNT",
     "there are more records than commands"},
    {EDONR_REFUSED_PAIRS, "EDONR_REFUSED_PAIRS",
     "the last pair of digests is not whole, or there are over 1,024"},
};

/* A faulty machine may answer with a number that the header does not know. */
static struct refusal find_refusal(uint32_t number)
{
    for (size_t i = 0; i < sizeof refusals / sizeof refusals[0]; i++)
        if (refusals[i].number == number)
            return refusals[i];
    return (struct refusal){number, "unknown", "no refusal has this number"};
}

void answer_text(uint64_t answer, char *text, size_t len)
{
    uint64_t unmarked = answer < EDONR_MARK ? answer : answer - EDONR_MARK;
    if (edonr_refusal(unmarked) == 0) {
        snprintf(text, len, "%" PRIu64, answer);
        return;
    }
    struct refusal refusal = find_refusal(edonr_refusal(unmarked));
    snprintf(text, len, "refusal %" PRIu32 " %s at offset %" PRIu32 " (%s)", refusal.number,
             refusal.name, edonr_offset(answer), refusal.meaning);
}
