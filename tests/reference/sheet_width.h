/*
 * Included by sheet_places.h, once with WIDTH 32 and once with WIDTH 64.
 *
 * A unit of work is one product or one division (document 02, Paper 3). Units are counted
 * where these are done: a function that does a command returns how many it did.
 */

static void AT_WIDTH(swap_vectors)(WORD a[8], WORD b[8])
{
    for (unsigned i = 0; i < 8; i++) {
        WORD kept = a[i];
        a[i] = b[i];
        b[i] = kept;
    }
}

static void AT_WIDTH(flip)(WORD v[8])
{
    WORD reversed[8];
    AT_WIDTH(reverse)(v, reversed);
    memcpy(v, reversed, sizeof reversed);
}

/* The commands of two places; d and s differ. */
static unsigned AT_WIDTH(do_two_places)(enum code code, WORD d[8], WORD s[8])
{
    switch (code) {
    case LMUL: AT_WIDTH(multiply)(s, d, d); return 1;
    case RMUL: AT_WIDTH(multiply)(d, s, d); return 1;
    case LDIV: AT_WIDTH(reference_divide_left)(s, d, d); return 1;
    case RDIV: AT_WIDTH(reference_divide_right)(d, s, d); return 1;
    default: AT_WIDTH(swap_vectors)(d, s); return 0;
    }
}

/* Does what code says with the places, and K, of the command at these bytes. */
static unsigned AT_WIDTH(do_command)(enum code code, WORD vectors[PLACES][8],
                                     const uint8_t *command)
{
    WORD *d = vectors[command[1]], k[8];
    if (has_two_places((uint8_t)code))
        return AT_WIDTH(do_two_places)(code, d, vectors[command[2]]);
    if (code == FLIP) {
        AT_WIDTH(flip)(d);
        return 0;
    }
    AT_WIDTH(load_vector)(command + 2, k);
    if (code == KMUL)
        AT_WIDTH(multiply)(k, d, d);
    else
        AT_WIDTH(reference_divide_left)(k, d, d);
    return 1;
}

static void AT_WIDTH(load_vectors)(const uint8_t *bytes, WORD vectors[PLACES][8])
{
    for (unsigned i = 0; i < PLACES; i++)
        AT_WIDTH(load_vector)(bytes + i * WIDTH, vectors[i]);
}

static void AT_WIDTH(store_vectors)(WORD vectors[PLACES][8], uint8_t *bytes)
{
    for (unsigned i = 0; i < PLACES; i++)
        AT_WIDTH(store_vector)(vectors[i], bytes + i * WIDTH);
}

/* The commands at these offsets in order, or undoing from the last one to the first.
   Returns the units of it all. */
static uint64_t AT_WIDTH(run)(enum direction direction, uint8_t *bytes,
                              const uint8_t *sheet, const size_t *at, size_t count)
{
    WORD vectors[PLACES][8];
    uint64_t units = 0;
    AT_WIDTH(load_vectors)(bytes, vectors);
    for (size_t done = 0; done < count; done++) {
        size_t number = direction == FORWARD ? done : count - 1 - done;
        const uint8_t *command = sheet + at[number];
        enum code code = (enum code)command[0];
        units += AT_WIDTH(do_command)(direction == FORWARD ? code : undoing(code), vectors,
                                      command);
    }
    AT_WIDTH(store_vectors)(vectors, bytes);
    return units;
}
