/*
 * Included by mutants.c, once with KIND narrow and once with KIND wide: the three calls of
 * one kind of hash.
 */

#define HASH struct JOIN(edonr, KIND)
#define REAL_OF(name) JOIN(JOIN(__real_edonr, KIND), name)
#define WRAP_OF(name) JOIN(JOIN(__wrap_edonr, KIND), name)

uint64_t REAL_OF(open)(HASH *hash, uint32_t size);
uint64_t REAL_OF(feed)(HASH *hash, const uint8_t *bytes, size_t len);
uint64_t REAL_OF(finish)(const HASH *hash, uint8_t *out, size_t out_len);

/* The bytes behind the first 2^32 are read from the front again. */
static uint64_t JOIN(JOIN(feed, KIND), wrapped)(HASH *hash, const uint8_t *bytes,
                                                size_t len)
{
    if (len <= AT(32))
        return REAL_OF(feed)(hash, bytes, len);
    REAL_OF(feed)(hash, bytes, AT(32));
    return REAL_OF(feed)(hash, bytes, len - AT(32));
}

uint64_t WRAP_OF(open)(HASH *hash, uint32_t size)
{
    HASH before = *hash;
    uint64_t answer = REAL_OF(open)(hash, size);
    if (IS(open_refused_writes) && !succeeds(answer))
        memset(hash, 0, sizeof *hash);
    if (IS(open_keeps_waiting) && succeeds(answer))
        memcpy(hash->waiting, before.waiting, sizeof before.waiting);
    return answer;
}

uint64_t WRAP_OF(feed)(HASH *hash, const uint8_t *bytes, size_t len)
{
    uint64_t total = hash->total;
    uint8_t *last = &hash->waiting[sizeof hash->waiting - 1];
    if (IS(feed_without_pointer) && bytes == NULL)
        return EDONR_MARK + edonr_refused(EDONR_REFUSED_MESSAGE, 0);
    if (IS(size_by_32_bits))
        hash->size = (uint32_t)hash->size;
    uint64_t answer = IS(feed_index_by_32_bits)
                          ? JOIN(JOIN(feed, KIND), wrapped)(hash, bytes, len)
                          : REAL_OF(feed)(hash, bytes, len);
    if (edonr_marked_refusal(answer) != 0) {
        if (IS(feed_refused_writes))
            *last ^= 1;
        return other_feed_refusal(answer);
    }
    if (IS(feed_writes_behind) && len > 0)
        *last |= 1;
    if (corrupts_pipe(total, len))
        hash->second[3] ^= 1;
    return answer;
}

uint64_t WRAP_OF(finish)(const HASH *hash, uint8_t *out, size_t out_len)
{
    HASH copy = *hash;
    if (IS(size_by_32_bits))
        copy.size = (uint32_t)copy.size;
    if (IS(finish_total_by_32_bits))
        copy.total = (uint32_t)copy.total;
    uint64_t answer = REAL_OF(finish)(&copy, out, out_len);
    if (!succeeds(answer))
        return IS(finish_marked) ? answer + EDONR_MARK : answer;
    if (IS(finish_changes_hash))
        ((HASH *)hash)->total++;
    if (IS(finish_writes_behind) && out_len > answer)
        out[answer] = 0;
    return answer;
}

#undef HASH
#undef REAL_OF
#undef WRAP_OF
