/*
 * Included by mutants.c, once with KIND narrow and once with KIND wide: finishing with bits
 * of one kind of hash. Each mutant is of that kind alone.
 */

#define HASH struct JOIN(edonr, KIND)
#define REAL_OF(name) JOIN(JOIN(__real_edonr, KIND), name)
#define WRAP_OF(name) JOIN(JOIN(__wrap_edonr, KIND), name)
#define IS_OF(name) IS(JOIN(KIND, name))

uint64_t REAL_OF(finish_bits)(const HASH *hash, uint8_t last, uint32_t count, uint8_t *out,
                              size_t out_len);

/* The byte with the last bits and the single one; stale is what stands in its place. */
static uint8_t JOIN(other_byte, KIND)(uint8_t last, uint32_t count, uint8_t stale)
{
    uint8_t bits = first_bits(last, count), one = (uint8_t)(0x80 >> count);
    if (IS_OF(bits_of_lowest))
        return first_bits((uint8_t)(last << (8 - count)), count) | one;
    if (IS_OF(bits_reversed))
        return reverse_bits(bits, count) | one;
    if (IS_OF(bits_one_less) && count > 0)
        return first_bits(last, count - 1) | (uint8_t)(one << 1);
    if (IS_OF(bits_one_in_front))
        return (uint8_t)(0x80 | bits >> 1);
    if (IS_OF(bits_without_one))
        return bits;
    if (IS_OF(bits_one_is_lowest))
        return bits | 1;
    if (IS_OF(bits_others_kept))
        return last | one;
    if (IS_OF(bits_ones_behind))
        return bits | (uint8_t)(0xFF >> count);
    return IS_OF(bits_stale_byte_kept) ? stale | bits | one : bits | one;
}

/* The length in the padding. */
static uint64_t JOIN(other_bit_length, KIND)(uint64_t total, uint32_t count)
{
    if (IS_OF(bits_length_of_bytes))
        return 8 * total;
    if (IS_OF(bits_length_rounded))
        return 8 * (total + (count > 0));
    if (IS_OF(bits_length_in_bytes))
        return total + (count > 0);
    if (IS_OF(bits_length_by_32_bits))
        return (uint32_t)(8 * total + count);
    if (IS_OF(bits_total_by_32_bits))
        return 8 * (uint64_t)(uint32_t)total + count;
    if (IS_OF(bits_longest_cut) && total == AT(61) - 1)
        return 8 * total;
    return 8 * total + count;
}

static struct ending JOIN(other_ending, KIND)(const HASH *hash, uint8_t last,
                                              uint32_t count)
{
    size_t block = sizeof hash->waiting, waiting = (size_t)(hash->total % block);
    uint8_t byte = JOIN(other_byte, KIND)(last, count, hash->waiting[waiting]);
    uint64_t bits = JOIN(other_bit_length, KIND)(hash->total, count);
    struct ending ending = {{byte, 0}, 1, bits, false};
    if ((IS_OF(bits_one_in_next_byte) && count > 0) || (IS_OF(bits_of_7) && count == 7))
        ending = (struct ending){{first_bits(last, count), 0x80}, 2, bits, false};
    if (IS_OF(bits_one_block_less) && count > 0 && waiting == block - 8)
        ending.len = 0;
    if (IS_OF(bits_one_block_more) && count > 0 && waiting == block - 9)
        ending.has_block_more = true;
    if (IS_OF(bits_length_highest_first))
        ending.bits = __builtin_bswap64(bits);
    return ending;
}

/* The digest of what a hash was fed and this ending, from the pipe that they lead to. */
static void JOIN(end_by, KIND)(const HASH *hash, const struct ending *ending,
                               uint8_t *digest)
{
    HASH copy = *hash;
    uint8_t tail[3 * sizeof copy.waiting] = {0};
    copy.total %= sizeof copy.waiting;
    size_t room = sizeof copy.waiting - (size_t)copy.total, len = (size_t)copy.size / 8;
    if (room < ending->len + 8 || ending->has_block_more)
        room += sizeof copy.waiting;
    memcpy(tail, ending->bytes, ending->len);
    for (unsigned i = 0; i < 8; i++)
        tail[room - 8 + i] = (uint8_t)(ending->bits >> (8 * i));
    REAL_OF(feed)(&copy, tail, room);
    size_t at = IS_OF(bits_of_front) ? 0 : sizeof copy.second - len;
    memcpy(digest, (const uint8_t *)copy.second + at, len);
}

/* What is written for a call that is not refused; digest is the right one before. */
static void JOIN(spoil_bits, KIND)(const HASH *hash, uint8_t last, uint32_t count,
                                   uint8_t *digest)
{
    uint64_t bits = 8 * hash->total + count;
    struct ending right = right_ending(hash->total, last, count);
    struct ending other = JOIN(other_ending, KIND)(hash, last, count);
    if (!is_same_ending(&other, &right) || IS_OF(bits_by_shim) || IS_OF(bits_of_front))
        JOIN(end_by, KIND)(hash, &other, digest);
    if (IS_OF(bits_ignored))
        REAL_OF(finish)(hash, digest, MOST_DIGEST);
    if ((IS_OF(bits_of_some) && hash->total % 64 == 37 && count == 5) ||
        (IS_OF(bits_at_edge) && (bits == 447 || bits == 959)) ||
        (IS_OF(bits_past_4_kib) && hash->total > 4096 && hash->total < AT(20)))
        digest[0] ^= 1;
}

static uint32_t JOIN(other_bit_count, KIND)(uint32_t count)
{
    if (IS_OF(bits_count_by_3_bits))
        return count % 8;
    if (IS_OF(bits_count_by_8_bits))
        return (uint8_t)count;
    if (IS_OF(bits_count_by_16_bits))
        return (uint16_t)count;
    if (IS_OF(bits_count_signed) && count > INT32_MAX)
        return 0;
    return IS_OF(bits_count_cut) && count > 7 ? 7 : count;
}

/* With which number a call is refused that is to be refused with this one. */
static uint32_t JOIN(other_bits_number, KIND)(const HASH *hash, uint32_t count,
                                              size_t out_len, uint32_t refusal)
{
    bool is_state = refusal == EDONR_REFUSED_STATE;
    bool is_count = refusal == EDONR_REFUSED_BIT_COUNT;
    bool is_too_short = out_len < hash->size / 8;
    if (IS_OF(bits_count_before_state) && is_state && count > 7)
        return EDONR_REFUSED_BIT_COUNT;
    if (is_too_short && ((IS_OF(bits_output_before_state) && is_state) ||
                         (IS_OF(bits_output_before_count) && is_count)))
        return EDONR_REFUSED_OUTPUT;
    if (IS_OF(bits_refused_with_14) && is_count)
        return EDONR_REFUSED_START;
    return IS_OF(bits_refused_with_2) && is_count ? EDONR_REFUSED_STATE : refusal;
}

static uint64_t JOIN(other_bits_refusal, KIND)(const HASH *hash, uint8_t last,
                                               uint32_t count, uint8_t *out, size_t out_len,
                                               uint32_t refusal)
{
    HASH copy = *hash;
    bool is_count = refusal == EDONR_REFUSED_BIT_COUNT;
    bool writes = refusal == EDONR_REFUSED_OUTPUT ? IS_OF(bits_short_output_written)
                                                  : IS_OF(bits_refused_writes);
    if (writes && out_len > 0)
        out[0] ^= 1;
    if (IS_OF(bits_refused_changes_hash))
        ((HASH *)hash)->total++;
    if (IS_OF(bits_without_pointer) && is_count && out == NULL)
        return edonr_refused(EDONR_REFUSED_OUTPUT, 0);
    if (IS_OF(bits_takes_8) && is_count && count == 8) {
        REAL_OF(feed)(&copy, &last, 1);
        return REAL_OF(finish)(&copy, out, out_len);
    }
    if (IS_OF(bits_takes_one_less) && !is_count && out_len + 1 == copy.size / 8) {
        memset(out, 0, out_len);
        return copy.size / 8;
    }
    refusal = JOIN(other_bits_number, KIND)(hash, count, out_len, refusal);
    uint64_t answer =
        edonr_refused(refusal, IS_OF(bits_offset_told) && is_count ? count : 0);
    return IS_OF(bits_marked) ? answer + EDONR_MARK : answer;
}

/* With which number a call is refused that is to be accepted; 0 if it is. */
static uint32_t JOIN(new_bits_refusal, KIND)(const HASH *hash, uint32_t count,
                                             size_t out_len)
{
    if (IS_OF(bits_always_refused) || (IS_OF(bits_0_refused) && count == 0) ||
        (IS_OF(bits_7_refused) && count == 7))
        return EDONR_REFUSED_BIT_COUNT;
    if (IS_OF(bits_longest_refused) && count > 0 && hash->total == AT(61) - 1)
        return EDONR_REFUSED_MESSAGE;
    return IS_OF(bits_needs_one_more) && out_len == hash->size / 8 ? EDONR_REFUSED_OUTPUT
                                                                   : 0;
}

static uint64_t JOIN(other_bits_answer, KIND)(size_t out_len, uint64_t answer)
{
    if (IS_OF(bits_answers_bits))
        return 8 * answer;
    return IS_OF(bits_answers_output) ? out_len : answer;
}

uint64_t WRAP_OF(finish_bits)(const HASH *hash, uint8_t last, uint32_t count, uint8_t *out,
                              size_t out_len)
{
    HASH copy = *hash;
    uint8_t digest[MOST_DIGEST];
    uint32_t taken = JOIN(other_bit_count, KIND)(count);
    if (IS_OF(bits_size_by_32_bits))
        copy.size = (uint32_t)copy.size;
    if (IS_OF(bits_takes_any_total))
        copy.total %= AT(61);
    if (IS_OF(bits_output_by_32_bits))
        out_len = (uint32_t)out_len;
    uint64_t answer = REAL_OF(finish_bits)(&copy, last, taken, digest, out_len);
    if (!succeeds(answer))
        return JOIN(other_bits_refusal, KIND)(hash, last, count, out, out_len,
                                              edonr_refusal(answer));
    uint32_t refusal = JOIN(new_bits_refusal, KIND)(&copy, count, out_len);
    if (refusal != 0)
        return edonr_refused(refusal, 0);
    JOIN(spoil_bits, KIND)(&copy, last, taken, digest);
    if (!IS_OF(bits_idle))
        memcpy(out, digest, answer);
    if (IS_OF(bits_changes_hash))
        ((HASH *)hash)->total++;
    if (IS_OF(bits_writes_behind) && out_len > answer)
        out[answer] ^= 1;
    return JOIN(other_bits_answer, KIND)(out_len, answer);
}

#undef HASH
#undef REAL_OF
#undef WRAP_OF
#undef IS_OF
