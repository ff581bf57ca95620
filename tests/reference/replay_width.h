/*
 * Included by replay.c, once with WIDTH 32 and once with WIDTH 64.
 */

/* Finds the first word, by place and then by number, in which a false record differs from
   what it should be. */
static void AT_WIDTH(find_word)(WORD state[PLACES][8], const uint8_t *record,
                                uint64_t finding[FINDING_VALUES])
{
    WORD recorded[PLACES][8];
    unsigned place = 0, word = 0;
    AT_WIDTH(load_vectors)(record, recorded);
    while (memcmp(recorded[place], state[place], sizeof state[place]) == 0)
        place++;
    while (recorded[place][word] == state[place][word])
        word++;
    finding[FINDING_PLACE] = place;
    finding[FINDING_WORD] = word;
    finding[FINDING_FOUND] = recorded[place][word];
    finding[FINDING_EXPECTED] = state[place][word];
}

/* Holds each record against the vectors after its command, in one run from the start. The
   vectors stay words all the way, so that this is a measure for a benchmark. Returns the
   number of the first false record, or 0. */
static uint64_t AT_WIDTH(replay)(const uint8_t *vectors, const uint8_t *sheet,
                                 const size_t *at, const uint8_t *records, size_t count,
                                 uint64_t finding[FINDING_VALUES])
{
    WORD state[PLACES][8];
    AT_WIDTH(load_vectors)(vectors, state);
    for (size_t done = 0; done < count; done++) {
        const uint8_t *command = sheet + at[done], *record = records + done * sizeof state;
        AT_WIDTH(do_command)((enum code)command[0], state, command);
        if (memcmp(record, state, sizeof state) != 0) {
            finding[FINDING_OFFSET] = at[done];
            AT_WIDTH(find_word)(state, record, finding);
            return done + 1;
        }
    }
    return 0;
}
