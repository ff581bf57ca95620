/*
 * Wrong archives: each call passes on to the archive's own, but for what the chosen mutant
 * does wrong. To be compiled with -DMUTANT=name, a name of the list below, and linked with
 * --wrap of all twenty-three calls, so that the comparisons meet it in the archive's place.
 */
#include <stdbool.h>
#include <string.h>

#include "edonr.h"

/* One mutant of each kind of hash. */
#define OF_BOTH_KINDS(name) narrow_##name, wide_##name

enum mutant {
    none,
    product_of_high_bits,
    product_of_some,
    product_writes_behind,
    product_refusals_exchanged,
    operand_length_by_32_bits,
    output_length_by_32_bits,
    left_division_is_right,
    right_division_is_left,
    digest_from_4_mib,
    digest_from_2_29,
    digest_index_by_32_bits,
    digest_writes_behind,
    digest_without_pointer,
    digest_of_another_size,
    digests_always_refused,
    digests_of_first,
    digests_of_message_before,
    digests_of_prefixes,
    digests_one_byte_late,
    digests_length_by_16_bits,
    digests_at_blocks,
    digests_number_by_8_bits,
    digests_of_1000,
    digests_loses_last,
    digests_loses_last_empty,
    digests_skips_empty,
    digests_224_is_256,
    digests_256_is_512,
    digests_384_is_512,
    digests_512_is_256,
    digests_answers_messages,
    digests_answers_one,
    digests_writes_behind,
    digests_changes_messages,
    digests_changes_lengths,
    digests_count_before_size,
    digests_sum_before_count,
    digests_output_before_count,
    digests_output_before_sum,
    digests_sum_at_most,
    digests_sum_at_least,
    digests_sum_by_32_bits,
    digests_bytes_without_list,
    digests_offset_told,
    digests_refused_with_3,
    digests_full_refused,
    digests_takes_one_more,
    digests_needs_one_more,
    digests_takes_one_less,
    digests_none_refused,
    digests_empty_refused,
    digests_refused_writes,
    digests_size_by_16_bits,
    digests_joined_by_32_bits,
    digests_list_in_bytes,
    digests_list_by_32_bits,
    digests_output_by_32_bits,
    digests_index_by_32_bits,
    digests_without_messages,
    digests_without_list,
    run_of_2048_idles,
    run_of_600,
    run_backward_of_1365_idles,
    run_answers_commands,
    run_counts_swaps,
    run_backward_counts_no_kdiv,
    run_offset_by_11_bits,
    run_refused_writes,
    run_places_refused_alike,
    run_upper_places_refused,
    run_equal_places_first,
    run_takes_four_vectors,
    run_leaves_upper_places,
    run_of_lower_places_writes_v7,
    sheet_length_by_32_bits,
    slice_always_refused,
    slice_idles,
    slice_of_2048_idles,
    slice_from_2048_idles,
    slice_moves_by_first,
    slice_from_the_front,
    slice_undoes,
    slice_leaves_upper_places,
    slice_swaps_use_no_budget,
    slice_flips_use_no_budget,
    slice_of_one_more,
    slice_of_one_less,
    slice_of_0_does_all,
    slice_budget_by_8_bits,
    slice_budget_signed,
    slice_units_of_all,
    slice_units_so_far,
    slice_counts_swaps,
    slice_counts_flips,
    slice_reaches_its_start,
    slice_reaches_last,
    slice_reached_by_11_bits,
    slice_answer_exchanged,
    slice_start_before_faults,
    slice_start_before_lengths,
    slice_starts_inside,
    slice_starts_behind,
    slice_end_refused,
    slice_start_told,
    slice_offset_by_16_bits,
    slice_checks_as_it_runs,
    slice_checks_from_start,
    slice_fault_from_start,
    slice_refused_writes,
    slice_faulty_writes,
    slice_changes_sheet,
    slice_writes_behind,
    slice_length_by_32_bits,
    slice_vectors_by_32_bits,
    slice_without_pointer,
    inverse_always_refused,
    inverse_idles,
    inverse_of_2048_idles,
    inverse_first_one_first,
    inverse_loses_first,
    inverse_loses_last,
    inverse_codes_kept,
    inverse_keyed_codes_kept,
    inverse_sides_exchanged,
    inverse_places_exchanged,
    inverse_swap_exchanged,
    inverse_k_reversed,
    inverse_k_one_byte_off,
    inverse_wide_as_narrow,
    inverse_writes_behind,
    inverse_changes_sheet,
    inverse_answers_one_more,
    inverse_answers_units,
    inverse_answers_output,
    inverse_output_before_sheet,
    inverse_output_before_width,
    inverse_needs_one_more,
    inverse_refused_writes,
    inverse_short_output_written,
    inverse_offset_lost,
    inverse_places_not_tested,
    inverse_length_by_32_bits,
    inverse_output_by_32_bits,
    inverse_without_pointer,
    open_refused_writes,
    open_keeps_waiting,
    feed_refused_writes,
    feed_writes_behind,
    feed_over_4_kib,
    feed_past_1200,
    feed_from_2_29,
    feed_from_2_32,
    feed_of_made_up,
    feed_index_by_32_bits,
    feed_unmarked,
    feed_refusals_exchanged,
    feed_without_pointer,
    size_by_32_bits,
    finish_changes_hash,
    finish_writes_behind,
    finish_total_by_32_bits,
    finish_marked,
    OF_BOTH_KINDS(bits_by_shim),
    OF_BOTH_KINDS(bits_always_refused),
    OF_BOTH_KINDS(bits_idle),
    OF_BOTH_KINDS(bits_ignored),
    OF_BOTH_KINDS(bits_of_lowest),
    OF_BOTH_KINDS(bits_reversed),
    OF_BOTH_KINDS(bits_one_less),
    OF_BOTH_KINDS(bits_of_7),
    OF_BOTH_KINDS(bits_of_some),
    OF_BOTH_KINDS(bits_at_edge),
    OF_BOTH_KINDS(bits_past_4_kib),
    OF_BOTH_KINDS(bits_one_in_front),
    OF_BOTH_KINDS(bits_without_one),
    OF_BOTH_KINDS(bits_one_is_lowest),
    OF_BOTH_KINDS(bits_one_in_next_byte),
    OF_BOTH_KINDS(bits_others_kept),
    OF_BOTH_KINDS(bits_ones_behind),
    OF_BOTH_KINDS(bits_stale_byte_kept),
    OF_BOTH_KINDS(bits_length_of_bytes),
    OF_BOTH_KINDS(bits_length_rounded),
    OF_BOTH_KINDS(bits_length_in_bytes),
    OF_BOTH_KINDS(bits_length_by_32_bits),
    OF_BOTH_KINDS(bits_length_highest_first),
    OF_BOTH_KINDS(bits_total_by_32_bits),
    OF_BOTH_KINDS(bits_longest_cut),
    OF_BOTH_KINDS(bits_one_block_more),
    OF_BOTH_KINDS(bits_one_block_less),
    OF_BOTH_KINDS(bits_of_front),
    OF_BOTH_KINDS(bits_answers_bits),
    OF_BOTH_KINDS(bits_answers_output),
    OF_BOTH_KINDS(bits_changes_hash),
    OF_BOTH_KINDS(bits_writes_behind),
    OF_BOTH_KINDS(bits_count_before_state),
    OF_BOTH_KINDS(bits_output_before_state),
    OF_BOTH_KINDS(bits_output_before_count),
    OF_BOTH_KINDS(bits_refused_with_14),
    OF_BOTH_KINDS(bits_refused_with_2),
    OF_BOTH_KINDS(bits_offset_told),
    OF_BOTH_KINDS(bits_marked),
    OF_BOTH_KINDS(bits_0_refused),
    OF_BOTH_KINDS(bits_7_refused),
    OF_BOTH_KINDS(bits_takes_8),
    OF_BOTH_KINDS(bits_count_cut),
    OF_BOTH_KINDS(bits_count_by_3_bits),
    OF_BOTH_KINDS(bits_count_by_8_bits),
    OF_BOTH_KINDS(bits_count_by_16_bits),
    OF_BOTH_KINDS(bits_count_signed),
    OF_BOTH_KINDS(bits_longest_refused),
    OF_BOTH_KINDS(bits_takes_any_total),
    OF_BOTH_KINDS(bits_size_by_32_bits),
    OF_BOTH_KINDS(bits_needs_one_more),
    OF_BOTH_KINDS(bits_takes_one_less),
    OF_BOTH_KINDS(bits_refused_writes),
    OF_BOTH_KINDS(bits_short_output_written),
    OF_BOTH_KINDS(bits_refused_changes_hash),
    OF_BOTH_KINDS(bits_output_by_32_bits),
    OF_BOTH_KINDS(bits_without_pointer),
    block_answers_width,
    block_refused_writes,
    block_refusals_exchanged,
    block_length_not_tested,
    block_length_by_32_bits,
    pipe_length_not_tested,
    pipe_length_by_32_bits,
    block_writes_behind,
    block_changes_block,
    block_steps_idle,
    block_directions_exchanged,
    block_c0_is_first_half,
    block_forward_of_some,
    block_forward_results_exchanged,
    block_forward_y_first,
    block_backward_is_forward,
    block_backward_of_high_bits,
    block_backward_y_first,
    block_backward_left_for_right,
    shuffle_always_refused,
    shuffle_idles,
    shuffle_copies,
    shuffle_highest_first,
    shuffle_words_reversed,
    shuffle_vectors_apart,
    shuffle_records_as_one,
    shuffle_wide_as_narrow,
    shuffle_directions_exchanged,
    shuffle_is_unshuffle,
    unshuffle_is_shuffle,
    unshuffle_highest_first,
    unshuffle_records_as_one,
    shuffle_of_first,
    shuffle_of_1024,
    shuffle_loses_last,
    unshuffle_loses_last,
    shuffle_loses_a_value,
    shuffle_writes_behind,
    unshuffle_writes_behind,
    shuffle_changes_records,
    shuffle_answers_records,
    shuffle_answers_output,
    shuffle_answers_0,
    shuffle_records_before_width,
    shuffle_output_before_width,
    shuffle_output_before_records,
    shuffle_unmarked,
    unshuffle_unmarked,
    shuffle_offset_told,
    shuffle_refused_writes,
    shuffle_short_output_written,
    shuffle_takes_one_less,
    shuffle_needs_one_more,
    shuffle_takes_vectors,
    shuffle_takes_four_vectors,
    shuffle_takes_any_length,
    shuffle_empty_refused,
    shuffle_width_by_16_bits,
    shuffle_length_by_32_bits,
    shuffle_output_by_32_bits,
    shuffle_index_by_32_bits,
    shuffle_without_pointer,
    replay_always_refused,
    replay_answers_0,
    replay_idles,
    replay_undoes,
    replay_one_command_less,
    replay_one_command_more,
    replay_of_last_commands,
    replay_of_changed_place,
    replay_lower_places,
    replay_loses_last_word,
    replay_words_by_32_bits,
    replay_by_xor,
    replay_of_1024,
    replay_loses_first,
    replay_loses_last,
    replay_last_false,
    replay_last_word,
    replay_by_word_and_place,
    replay_numbers_from_0,
    replay_numbers_by_units,
    replay_number_by_8_bits,
    replay_offset_lost,
    replay_offset_behind,
    replay_offset_by_11_bits,
    replay_place_exchanged,
    replay_word_of_64,
    replay_words_exchanged,
    replay_found_by_32_bits,
    replay_expected_by_32_bits,
    replay_upper_halves_left,
    replay_finding_lost,
    replay_finding_short,
    replay_true_writes,
    replay_refused_writes,
    replay_moves_vectors,
    replay_changes_sheet,
    replay_changes_records,
    replay_records_before_lengths,
    replay_records_before_faults,
    replay_count_before_faults,
    replay_count_before_records,
    replay_checks_as_it_runs,
    replay_false_before_faults,
    replay_count_told,
    replay_full_refused,
    replay_fewer_refused,
    replay_over_units_refused,
    replay_none_refused,
    replay_takes_more,
    replay_takes_any_length,
    replay_width_by_16_bits,
    replay_vectors_by_32_bits,
    replay_sheet_by_32_bits,
    replay_records_by_32_bits,
    replay_without_sheet,
    replay_without_records,
    flips_always_refused,
    flips_of_first_digest,
    flips_of_first_word,
    flips_loses_last_word,
    flips_of_record_before,
    flips_of_neighbours,
    flips_of_first,
    flips_by_8_bits,
    flips_adds_up,
    flips_sum_of_last,
    flips_sum_of_list,
    flips_sum_short,
    flips_sum_by_16_bits,
    flips_writes_behind,
    flips_changes_records,
    flips_list_before_records,
    flips_full_refused,
    flips_takes_one_more,
    flips_takes_digests,
    flips_list_in_bytes,
    flips_refused_writes,
    flips_length_by_32_bits,
    flips_list_by_32_bits,
    flips_without_pointer
};

#define IS(name) (MUTANT == (name))

/* The linker's names: calls come to the one and go on to the other. */
#define WRAP(name) __wrap_edonr_##name
#define REAL(name) __real_edonr_##name

#define AT(power) ((uint64_t)1 << (power))

static bool succeeds(uint64_t answer)
{
    return edonr_refusal(answer) == 0;
}

/* ---------------- product and divisions ---------------- */

#define OPERATION(name)                                                                    \
    uint64_t name(uint32_t width, const uint8_t *first, size_t first_len,                  \
                  const uint8_t *second, size_t second_len, uint8_t *out, size_t out_len)
#define OPERANDS width, first, first_len, second, second_len, out, out_len

OPERATION(REAL(product));
OPERATION(REAL(left_division));
OPERATION(REAL(right_division));

OPERATION(WRAP(product))
{
    if (IS(operand_length_by_32_bits))
        first_len = (uint32_t)first_len;
    if (IS(output_length_by_32_bits))
        out_len = (uint32_t)out_len;
    uint64_t answer = REAL(product)(OPERANDS);
    if (IS(product_refusals_exchanged) && edonr_refusal(answer) == EDONR_REFUSED_LENGTH &&
        out_len < width)
        return edonr_refused(EDONR_REFUSED_OUTPUT, 0);
    if (!succeeds(answer))
        return answer;
    if (IS(product_of_high_bits) && width == 64 && (first[63] & second[7] & 0x80))
        out[0] ^= 1;
    if (IS(product_of_some) && first[5] == 0x5A && (second[9] & 0x1F) == 3)
        out[width - 1] ^= 0x80;
    if (IS(product_writes_behind) && out_len > width)
        out[width] = 0;
    return answer;
}

OPERATION(WRAP(left_division))
{
    if (IS(left_division_is_right))
        return REAL(right_division)(width, second, second_len, first, first_len, out,
                                    out_len);
    return REAL(left_division)(OPERANDS);
}

OPERATION(WRAP(right_division))
{
    if (IS(right_division_is_left))
        return REAL(left_division)(width, second, second_len, first, first_len, out,
                                   out_len);
    return REAL(right_division)(OPERANDS);
}

/* ---------------- runs ---------------- */

#define RUN(name)                                                                          \
    uint64_t name(uint32_t width, uint8_t *vectors, size_t vectors_len,                    \
                  const uint8_t *sheet, size_t sheet_len)

RUN(REAL(run_forward));
RUN(REAL(run_backward));

typedef RUN(run_function);

static size_t command_len(uint32_t width, uint8_t code)
{
    return code <= 5 ? 3 : code == 6 ? 2 : 2 + (size_t)width;
}

/* Where command number count begins, in a sheet that is sound. */
static size_t offset_of(uint32_t width, const uint8_t *sheet, size_t count)
{
    size_t at = 0;
    for (; count > 0; count--)
        at += command_len(width, sheet[at]);
    return at;
}

/* How many commands of a code, of any for 0, a sheet has that is sound. */
static uint64_t count_commands(uint32_t width, const uint8_t *sheet, size_t sheet_len,
                               uint8_t code)
{
    uint64_t count = 0;
    for (size_t at = 0; at < sheet_len; at += command_len(width, sheet[at]))
        count += code == 0 || sheet[at] == code;
    return count;
}

/* What a run would answer, with nothing done. */
static uint64_t answer_of(run_function *real, uint32_t width, size_t vectors_len,
                          const uint8_t *sheet, size_t sheet_len)
{
    uint8_t unused[EDONR_PLACES * 64] = {0};
    return real(width, unused, vectors_len, sheet, sheet_len);
}

static bool idles(bool backward, uint64_t commands)
{
    return (IS(run_of_2048_idles) && commands == 2048) ||
           (IS(run_backward_of_1365_idles) && backward && commands == 1365);
}

/* What a run that is not refused answers, of a sheet with these units. */
static uint64_t other_units(bool backward, uint32_t width, const uint8_t *sheet,
                            size_t sheet_len, uint64_t units)
{
    if (IS(run_answers_commands))
        return count_commands(width, sheet, sheet_len, 0);
    if (IS(run_counts_swaps))
        return units + count_commands(width, sheet, sheet_len, 5);
    if (IS(run_backward_counts_no_kdiv) && backward)
        return units - count_commands(width, sheet, sheet_len, 8);
    return units;
}

static uint64_t other_refusal(uint64_t answer, uint32_t width, size_t vectors_len,
                              const uint8_t *sheet)
{
    uint32_t refusal = edonr_refusal(answer), offset = edonr_offset(answer);
    if (IS(run_takes_four_vectors) && refusal == EDONR_REFUSED_LENGTH &&
        vectors_len == 4 * (size_t)width)
        return 0;
    if (IS(run_offset_by_11_bits))
        offset &= 0x7FF;
    if (IS(run_places_refused_alike) && refusal == EDONR_REFUSED_SAME_PLACE)
        refusal = EDONR_REFUSED_PLACE;
    if (IS(run_equal_places_first) && refusal == EDONR_REFUSED_PLACE &&
        sheet[offset] <= 5 && sheet[offset + 1] == sheet[offset + 2])
        refusal = EDONR_REFUSED_SAME_PLACE;
    return edonr_refused(refusal, offset);
}

/* Where the first command with a place above 3 begins, in a sheet that is sound; where there
   is none, the sheet's length. */
static size_t first_upper_place(uint32_t width, const uint8_t *sheet, size_t sheet_len)
{
    size_t at = 0;
    while (at < sheet_len && sheet[at + 1] <= 3 && (sheet[at] > 5 || sheet[at + 2] <= 3))
        at += command_len(width, sheet[at]);
    return at;
}

static uint64_t run(run_function *real, bool backward, uint32_t width, uint8_t *vectors,
                    size_t vectors_len, const uint8_t *sheet, size_t sheet_len)
{
    if (IS(sheet_length_by_32_bits))
        sheet_len = (uint32_t)sheet_len;
    uint64_t answer = answer_of(real, width, vectors_len, sheet, sheet_len);
    if (!succeeds(answer)) {
        if (IS(run_refused_writes) && edonr_offset(answer) > 0)
            vectors[0] ^= 1;
        return other_refusal(answer, width, vectors_len, sheet);
    }
    size_t upper = first_upper_place(width, sheet, sheet_len);
    if (IS(run_upper_places_refused) && upper < sheet_len)
        return edonr_refused(EDONR_REFUSED_PLACE, (uint32_t)upper);
    uint64_t commands = count_commands(width, sheet, sheet_len, 0);
    answer = other_units(backward, width, sheet, sheet_len, answer);
    if (idles(backward, commands))
        return answer;
    if (IS(run_of_600) && commands > 600)
        sheet_len = offset_of(width, sheet, 600);
    uint8_t kept[EDONR_PLACES * 64];
    memcpy(kept, vectors, vectors_len);
    real(width, vectors, vectors_len, sheet, sheet_len);
    if (IS(run_leaves_upper_places))
        memcpy(vectors + vectors_len / 2, kept + vectors_len / 2, vectors_len / 2);
    if (IS(run_of_lower_places_writes_v7) && upper == sheet_len)
        vectors[vectors_len - 1] ^= 1;
    return answer;
}

RUN(WRAP(run_forward))
{
    return run(REAL(run_forward), false, width, vectors, vectors_len, sheet, sheet_len);
}

RUN(WRAP(run_backward))
{
    return run(REAL(run_backward), true, width, vectors, vectors_len, sheet, sheet_len);
}

/* ---------------- slices ---------------- */

#define SLICE(name)                                                                        \
    uint64_t name(uint32_t width, uint8_t *vectors, size_t vectors_len,                    \
                  const uint8_t *sheet, size_t sheet_len, uint32_t offset,                 \
                  uint16_t budget)

SLICE(REAL(run_slice));

struct slice {
    uint32_t width;
    uint8_t *vectors;
    size_t vectors_len;
    const uint8_t *sheet;
    size_t sheet_len;
    uint32_t offset;
    uint16_t budget;
};

static uint64_t do_slice(struct slice s)
{
    return REAL(run_slice)(s.width, s.vectors, s.vectors_len, s.sheet, s.sheet_len,
                           s.offset, s.budget);
}

/* What a slice would answer, with nothing done. */
static uint64_t answer_of_slice(struct slice s)
{
    uint8_t unused[EDONR_PLACES * 64] = {0};
    s.vectors = unused;
    return do_slice(s);
}

/* Where the command begins that a byte of a sound sheet belongs to. */
static uint32_t command_of(uint32_t width, const uint8_t *sheet, size_t offset)
{
    size_t at = 0;
    while (at + command_len(width, sheet[at]) <= offset)
        at += command_len(width, sheet[at]);
    return (uint32_t)at;
}

/* Whether a command of a sound sheet begins at an offset, or the sheet ends there. */
static bool is_start(uint32_t width, const uint8_t *sheet, size_t sheet_len, size_t offset)
{
    size_t at = 0;
    while (at < sheet_len && at < offset)
        at += command_len(width, sheet[at]);
    return at == offset;
}

/* For a slice that is refused with 14. */
static uint64_t other_start_refusal(struct slice s, uint64_t answer)
{
    if (IS(slice_refused_writes))
        s.vectors[0] ^= 1;
    if (IS(slice_start_told))
        return edonr_refused(EDONR_REFUSED_START, s.offset);
    if (IS(slice_starts_behind) && s.offset > s.sheet_len)
        return s.sheet_len;
    if (IS(slice_starts_inside) && s.offset < s.sheet_len) {
        s.offset = command_of(s.width, s.sheet, s.offset);
        return do_slice(s);
    }
    return answer;
}

/* For a slice of a sheet that is sound up to a fault. */
static uint64_t other_fault_refusal(struct slice s, uint64_t answer)
{
    size_t fault = edonr_offset(answer);
    bool starts = is_start(s.width, s.sheet, fault, s.offset);
    struct slice front = s, back = s;
    front.sheet_len = fault;
    if (IS(slice_faulty_writes))
        REAL(run_forward)(s.width, s.vectors, s.vectors_len, s.sheet, fault);
    if (IS(slice_start_before_faults) && !starts)
        return edonr_refused(EDONR_REFUSED_START, 0);
    if (IS(slice_fault_from_start) && s.offset <= fault)
        return answer - s.offset;
    if (IS(slice_checks_as_it_runs) && starts &&
        count_commands(s.width, s.sheet + s.offset, fault - s.offset, 0) >= s.budget)
        return do_slice(front);
    if (IS(slice_checks_from_start) && s.offset > fault && s.offset <= s.sheet_len) {
        back.sheet += s.offset;
        back.sheet_len -= s.offset;
        back.offset = 0;
        uint64_t of_back = do_slice(back);
        return succeeds(of_back) ? of_back + s.offset : answer;
    }
    return answer;
}

static uint64_t other_slice_refusal(struct slice s, uint64_t answer)
{
    if (edonr_refusal(answer) == EDONR_REFUSED_START)
        return other_start_refusal(s, answer);
    if (edonr_refusal(answer) >= EDONR_REFUSED_COMMAND)
        return other_fault_refusal(s, answer);
    if (IS(slice_start_before_lengths) && s.offset > s.sheet_len)
        return edonr_refused(EDONR_REFUSED_START, 0);
    return answer;
}

/* The number of commands that a slice does, if those of one code use no budget. */
static uint16_t count_without(const struct slice *s, uint8_t code)
{
    uint16_t count = 0, left = s->budget;
    for (size_t at = s->offset; at < s->sheet_len && left > 0; count++) {
        left = (uint16_t)(left - (s->sheet[at] != code));
        at += command_len(s->width, s->sheet[at]);
    }
    return count;
}

static uint16_t other_budget(const struct slice *s)
{
    if (IS(slice_swaps_use_no_budget))
        return count_without(s, 5);
    if (IS(slice_flips_use_no_budget))
        return count_without(s, 6);
    if (IS(slice_of_one_more) && s->budget < UINT16_MAX)
        return s->budget + 1;
    if (IS(slice_of_one_less) && s->budget > 0)
        return s->budget - 1;
    if (IS(slice_of_0_does_all) && s->budget == 0)
        return UINT16_MAX;
    if (IS(slice_budget_by_8_bits))
        return s->budget & 0xFF;
    if (IS(slice_budget_signed) && s->budget > INT16_MAX)
        return 0;
    return s->budget;
}

/* A slice that is not refused, up to the offset that it reaches. */
static void move_slice(struct slice s, size_t reached)
{
    uint8_t kept[EDONR_PLACES * 64];
    const uint8_t *part = s.sheet + s.offset;
    size_t part_len = reached - s.offset, half = s.vectors_len / 2;
    uint64_t commands = count_commands(s.width, part, part_len, 0);
    if (IS(slice_idles) || (IS(slice_of_2048_idles) && commands == 2048) ||
        (IS(slice_from_2048_idles) && s.offset >= 2048))
        return;
    if (IS(slice_undoes)) {
        REAL(run_backward)(s.width, s.vectors, s.vectors_len, part, part_len);
        return;
    }
    if (IS(slice_moves_by_first) && s.budget > 1)
        s.budget = 1;
    if (IS(slice_from_the_front))
        s.offset = 0;
    memcpy(kept, s.vectors, s.vectors_len);
    do_slice(s);
    if (IS(slice_leaves_upper_places))
        memcpy(s.vectors + half, kept + half, half);
}

/* What is answered for a slice that is done. */
static uint64_t other_slice_answer(const struct slice *s, uint64_t answer)
{
    uint64_t units = edonr_slice_units(answer), reached = edonr_slice_offset(answer);
    const uint8_t *part = s->sheet + s->offset;
    size_t part_len = (size_t)reached - s->offset;
    if (IS(slice_counts_swaps))
        units += count_commands(s->width, part, part_len, 5);
    if (IS(slice_counts_flips))
        units += count_commands(s->width, part, part_len, 6);
    if (IS(slice_units_of_all) || IS(slice_units_so_far))
        units = answer_of(REAL(run_forward), s->width, s->vectors_len, s->sheet,
                          IS(slice_units_of_all) ? s->sheet_len : (size_t)reached);
    if (IS(slice_reaches_its_start))
        reached = s->offset;
    if (IS(slice_reaches_last) && part_len > 0)
        reached = command_of(s->width, s->sheet, (size_t)reached - 1);
    if (IS(slice_reached_by_11_bits))
        reached &= 0x7FF;
    return IS(slice_answer_exchanged) ? (reached << 16) + units : (units << 16) + reached;
}

SLICE(WRAP(run_slice))
{
    struct slice s = {width, vectors, vectors_len, sheet, sheet_len, offset, budget};
    if (IS(slice_vectors_by_32_bits))
        s.vectors_len = (uint32_t)vectors_len;
    if (IS(slice_length_by_32_bits))
        s.sheet_len = (uint32_t)sheet_len;
    if (IS(slice_offset_by_16_bits))
        s.offset = (uint16_t)offset;
    if (IS(slice_without_pointer) && sheet == NULL)
        return edonr_refused(EDONR_REFUSED_SHEET, 0);
    uint64_t answer = answer_of_slice(s);
    if (!succeeds(answer))
        return other_slice_refusal(s, answer);
    if (IS(slice_always_refused) || (IS(slice_end_refused) && offset == sheet_len))
        return edonr_refused(EDONR_REFUSED_START, 0);
    s.budget = other_budget(&s);
    answer = answer_of_slice(s);
    move_slice(s, edonr_slice_offset(answer));
    answer = other_slice_answer(&s, answer);
    if (IS(slice_writes_behind))
        vectors[vectors_len] ^= 1;
    if (IS(slice_changes_sheet) && sheet_len > 0)
        ((uint8_t *)sheet)[sheet_len - 1] ^= 1;
    return answer;
}

/* ---------------- inverse sheets ---------------- */

#define INVERSE_SHEET(name)                                                                \
    uint64_t name(uint32_t width, const uint8_t *sheet, size_t sheet_len, uint8_t *out,    \
                  size_t out_len)

INVERSE_SHEET(REAL(inverse_sheet));

enum { MOST_SHEET = 4096 };

static void exchange_bytes(uint8_t *a, uint8_t *b)
{
    uint8_t kept = *a;
    *a = *b;
    *b = kept;
}

/* The code that a mutant has in place of an undoing command's: the one of the other side,
   or the one that was to be undone. */
static uint8_t other_code(uint8_t code)
{
    if (IS(inverse_sides_exchanged) && code <= 4)
        return code <= 2 ? 3 - code : 7 - code;
    if (IS(inverse_codes_kept) && code <= 4)
        return code <= 2 ? code + 2 : code - 2;
    if ((IS(inverse_codes_kept) || IS(inverse_keyed_codes_kept)) && code > 6)
        return 15 - code;
    return code;
}

/* An undoing command. */
static void spoil_command(uint32_t width, uint8_t *command)
{
    uint8_t code = command[0], *k = command + 2;
    command[0] = other_code(code);
    if ((IS(inverse_places_exchanged) && code <= 5) ||
        (IS(inverse_swap_exchanged) && code == 5))
        exchange_bytes(command + 1, command + 2);
    for (size_t i = 0; IS(inverse_k_reversed) && code > 6 && i < width / 2; i++)
        exchange_bytes(k + i, k + width - 1 - i);
    for (size_t i = 1; IS(inverse_k_one_byte_off) && code > 6 && i < width; i++)
        exchange_bytes(k + i - 1, k + i);
}

/* Each undoing command where the command stands that it undoes. */
static void undo_in_order(uint32_t width, const uint8_t *sheet, size_t sheet_len,
                          uint8_t *out)
{
    size_t len;
    for (size_t at = 0; at < sheet_len; at += len) {
        len = command_len(width, sheet[at]);
        REAL(inverse_sheet)(width, sheet + at, len, out + at, len);
    }
}

/* An inverse sheet, of which all or a part can be made what the output was before. */
static void spoil_inverse(uint32_t width, const uint8_t *sheet, size_t sheet_len,
                          uint8_t *out, const uint8_t before[MOST_SHEET])
{
    uint64_t commands = count_commands(width, sheet, sheet_len, 0);
    for (size_t at = 0, len; at < sheet_len; at += len) {
        len = command_len(width, out[at]);
        spoil_command(width, out + at);
    }
    if (IS(inverse_first_one_first))
        undo_in_order(width, sheet, sheet_len, out);
    if (IS(inverse_idles) || (IS(inverse_of_2048_idles) && commands == 2048))
        memcpy(out, before, sheet_len);
    if (IS(inverse_loses_last) && commands > 0)
        memcpy(out, before, command_len(width, out[0]));
    if (IS(inverse_loses_first) && commands > 0) {
        size_t at = sheet_len - command_len(width, sheet[0]);
        memcpy(out + at, before + at, sheet_len - at);
    }
}

static uint64_t other_inverse_refusal(uint64_t answer, size_t sheet_len, uint8_t *out,
                                      size_t out_len)
{
    uint32_t refusal = edonr_refusal(answer);
    bool by_width = refusal == EDONR_REFUSED_WIDTH;
    bool writes = refusal == EDONR_REFUSED_OUTPUT ? IS(inverse_short_output_written)
                                                  : IS(inverse_refused_writes);
    if (writes && out_len > 0)
        out[0] ^= 1;
    if (out_len < sheet_len &&
        (by_width ? IS(inverse_output_before_width) : IS(inverse_output_before_sheet)))
        return edonr_refused(EDONR_REFUSED_OUTPUT, 0);
    if (IS(inverse_places_not_tested) && refusal >= EDONR_REFUSED_PLACE)
        return sheet_len;
    return IS(inverse_offset_lost) ? edonr_refused(refusal, 0) : answer;
}

/* What is answered for an inverse sheet that is written. */
static uint64_t other_length(uint32_t width, const uint8_t *sheet, size_t sheet_len,
                             size_t out_len)
{
    if (IS(inverse_answers_one_more))
        return sheet_len + 1;
    if (IS(inverse_answers_output))
        return out_len;
    if (IS(inverse_answers_units))
        return count_commands(width, sheet, sheet_len, 0) -
               count_commands(width, sheet, sheet_len, 5) -
               count_commands(width, sheet, sheet_len, 6);
    return sheet_len;
}

INVERSE_SHEET(WRAP(inverse_sheet))
{
    uint8_t before[MOST_SHEET] = {0};
    if (IS(inverse_length_by_32_bits))
        sheet_len = (uint32_t)sheet_len;
    if (IS(inverse_output_by_32_bits))
        out_len = (uint32_t)out_len;
    if (IS(inverse_wide_as_narrow) && width == 64)
        width = 32;
    if (IS(inverse_without_pointer) && sheet == NULL)
        return edonr_refused(EDONR_REFUSED_SHEET, 0);
    if (sheet_len > 0 && sheet_len <= MOST_SHEET && out_len >= sheet_len)
        memcpy(before, out, sheet_len);
    uint64_t answer = REAL(inverse_sheet)(width, sheet, sheet_len, out, out_len);
    if (!succeeds(answer))
        return other_inverse_refusal(answer, sheet_len, out, out_len);
    if (IS(inverse_always_refused) || (IS(inverse_needs_one_more) && out_len == sheet_len))
        return edonr_refused(EDONR_REFUSED_OUTPUT, 0);
    spoil_inverse(width, sheet, sheet_len, out, before);
    uint64_t length = other_length(width, sheet, sheet_len, out_len);
    if (IS(inverse_writes_behind) && out_len > sheet_len)
        out[sheet_len] ^= 1;
    if (IS(inverse_changes_sheet) && sheet_len > 0)
        ((uint8_t *)sheet)[sheet_len - 1] ^= 1;
    return length;
}

/* ---------------- hashing in pieces ---------------- */

/* What a feeding that was accepted leaves wrong: of these bytes, onto this total. */
static bool corrupts_pipe(uint64_t total, size_t len)
{
    return (IS(feed_over_4_kib) && len > 4096) ||
           (IS(feed_past_1200) && total < AT(20) && total + len > 1200) ||
           (IS(feed_from_2_29) && total >= AT(29) && total < AT(30)) ||
           (IS(feed_from_2_32) && total >= AT(32) && total < AT(33)) ||
           (IS(feed_of_made_up) && total > AT(40) && len > 0);
}

static uint64_t other_feed_refusal(uint64_t answer)
{
    if (IS(feed_unmarked))
        return answer - EDONR_MARK;
    if (IS(feed_refusals_exchanged))
        return EDONR_MARK + edonr_refused(5 - edonr_marked_refusal(answer), 0);
    return answer;
}

#define JOIN_EXPANDED(a, b) a##_##b
#define JOIN(a, b) JOIN_EXPANDED(a, b)

#define KIND narrow
#include "mutants_kind.h"
#undef KIND

#define KIND wide
#include "mutants_kind.h"
#undef KIND

/* ---------------- digest ---------------- */

uint64_t REAL(digest)(uint32_t size, const uint8_t *message, size_t message_len,
                      uint8_t *out, size_t out_len);

/* By pieces, of which the part behind 2^32 bytes is read from the front again. */
static uint64_t digest_of_wrapped(uint32_t size, const uint8_t *message, size_t len,
                                  uint8_t *out, size_t out_len)
{
    struct edonr_narrow narrow;
    struct edonr_wide wide;
    if (size == 224 || size == 256) {
        REAL(narrow_open)(&narrow, size);
        feed_narrow_wrapped(&narrow, message, len);
        return REAL(narrow_finish)(&narrow, out, out_len);
    }
    REAL(wide_open)(&wide, size);
    feed_wide_wrapped(&wide, message, len);
    return REAL(wide_finish)(&wide, out, out_len);
}

uint64_t WRAP(digest)(uint32_t size, const uint8_t *message, size_t message_len,
                      uint8_t *out, size_t out_len)
{
    if (IS(digest_without_pointer) && message == NULL)
        return edonr_refused(EDONR_REFUSED_MESSAGE, 0);
    if (IS(digest_of_another_size) && size == 320)
        size = 256;
    if (IS(digest_index_by_32_bits) && message_len > AT(32))
        return digest_of_wrapped(size, message, message_len, out, out_len);
    uint64_t answer = REAL(digest)(size, message, message_len, out, out_len);
    if (!succeeds(answer))
        return answer;
    if ((IS(digest_from_4_mib) && message_len >= 4 << 20) ||
        (IS(digest_from_2_29) && message_len >= AT(29)))
        out[0] ^= 1;
    if (IS(digest_writes_behind) && out_len > size / 8)
        out[size / 8] ^= 1;
    return answer;
}

/* ---------------- digests of many messages ---------------- */

#define DIGESTS(name)                                                                      \
    uint64_t name(uint32_t size, const uint8_t *messages, size_t messages_len,             \
                  const uint32_t *lengths, size_t lengths_len, uint8_t *out,               \
                  size_t out_len)

DIGESTS(REAL(digests));

enum { MOST_DIGEST = 64, MOST_LIST = 2 * EDONR_MESSAGES_MAX + 1 };

struct digests {
    uint32_t size;
    const uint8_t *messages;
    size_t messages_len;
    const uint32_t *lengths;
    size_t lengths_len;
    uint8_t *out;
    size_t out_len;
};

/* What the call would answer, with nothing written. */
static uint64_t answer_of_digests(const struct digests *d)
{
    static uint8_t unused[EDONR_MESSAGES_MAX * MOST_DIGEST];
    size_t len = d->out_len < sizeof unused ? d->out_len : sizeof unused;
    return REAL(digests)(d->size, d->messages, d->messages_len, d->lengths, d->lengths_len,
                         unused, len);
}

/* Of a list that is only claimed there is none. */
static uint64_t sum_of_lengths(const struct digests *d)
{
    uint64_t sum = 0;
    for (size_t k = 0; d->lengths_len <= MOST_LIST && k < d->lengths_len; k++)
        sum += d->lengths[k];
    return sum;
}

static size_t count_empty(const struct digests *d, size_t count)
{
    size_t empty = 0;
    for (size_t k = 0; k < count; k++)
        empty += d->lengths[k] == 0;
    return empty;
}

/* A message by where it starts and by its length. */
struct part {
    size_t start, len;
};

/* What is hashed in place of a message, by its number. */
static struct part other_message(const struct digests *d, size_t number, struct part part)
{
    size_t left = part.start < d->messages_len ? d->messages_len - part.start : 0;
    size_t len_before = number > 0 ? d->lengths[number - 1] : 0;
    if (IS(digests_of_first))
        return (struct part){0, d->lengths[0]};
    if (IS(digests_of_message_before) && number > 0)
        return (struct part){part.start - len_before, len_before};
    if (IS(digests_of_prefixes))
        return (struct part){0, part.start + part.len};
    if (IS(digests_one_byte_late) && number > 0 && part.len < left)
        return (struct part){part.start + 1, part.len};
    if (IS(digests_sum_at_least) && part.len > left)
        return (struct part){d->messages_len - left, left};
    if (IS(digests_length_by_16_bits))
        return (struct part){part.start, (uint16_t)part.len};
    if (IS(digests_index_by_32_bits))
        return (struct part){(uint32_t)part.start, part.len};
    return part;
}

/* Where a digest is written, by its number; one that is lost, behind the output. */
static size_t other_digest_place(const struct digests *d, size_t number)
{
    size_t digest_len = d->size / 8, block_len = d->size <= 256 ? 64 : 128;
    bool is_lost = (IS(digests_of_1000) && number >= 1000) ||
                   (IS(digests_loses_last) && number + 1 == d->lengths_len) ||
                   (IS(digests_skips_empty) && d->lengths[number] == 0);
    if (is_lost)
        return d->out_len;
    if (IS(digests_at_blocks))
        return number * block_len;
    if (IS(digests_number_by_8_bits))
        return (uint8_t)number * digest_len;
    if (IS(digests_skips_empty))
        return (number - count_empty(d, number)) * digest_len;
    return number * digest_len;
}

static uint32_t other_size(uint32_t size)
{
    if (IS(digests_224_is_256) && size == 224)
        return 256;
    if ((IS(digests_256_is_512) && size == 256) || (IS(digests_384_is_512) && size == 384))
        return 512;
    return IS(digests_512_is_256) && size == 512 ? 256 : size;
}

/* As far as the output goes. */
static void write_digest(const struct digests *d, size_t number, struct part part)
{
    uint8_t digest[MOST_DIGEST];
    uint32_t size = other_size(d->size);
    size_t at = other_digest_place(d, number);
    part = other_message(d, number, part);
    REAL(digest)(size, d->messages + part.start, part.len, digest, sizeof digest);
    for (size_t i = 0; i < d->size / 8 && at + i < d->out_len; i++)
        d->out[at + i] = digest[i % (size / 8)];
}

/* A call that is not refused. */
static uint64_t write_digests(struct digests d)
{
    size_t start = 0, count = d.lengths_len;
    if (IS(digests_loses_last_empty) && count > 0 && d.lengths[count - 1] == 0)
        count--;
    size_t len = count * (d.size / 8);
    for (size_t k = 0; k < count; k++) {
        write_digest(&d, k, (struct part){start, d.lengths[k]});
        start += d.lengths[k];
    }
    if (IS(digests_writes_behind) && d.out_len > len)
        d.out[len] ^= 1;
    if (IS(digests_changes_messages) && d.messages_len > 0)
        ((uint8_t *)d.messages)[d.messages_len - 1] ^= 1;
    if (IS(digests_changes_lengths) && count > 0)
        ((uint32_t *)d.lengths)[count - 1] ^= 1;
    if (IS(digests_answers_messages))
        return count;
    return IS(digests_answers_one) ? d.size / 8 : len;
}

/* Whether a call is accepted that is to be refused with this number. */
static bool is_accepted_otherwise(const struct digests *d, uint32_t refusal)
{
    uint64_t sum = sum_of_lengths(d);
    size_t count = d->lengths_len, len = count * (d->size / 8);
    bool fits = d->out_len >= len;
    switch (refusal) {
    case EDONR_REFUSED_MESSAGE_COUNT:
        return IS(digests_takes_one_more) && count == EDONR_MESSAGES_MAX + 1 &&
               sum == d->messages_len && fits;
    case EDONR_REFUSED_JOINED_LENGTH:
        return fits && ((IS(digests_sum_at_most) && sum < d->messages_len) ||
                        (IS(digests_sum_at_least) && sum > d->messages_len) ||
                        (IS(digests_bytes_without_list) && count == 0));
    case EDONR_REFUSED_OUTPUT: return IS(digests_takes_one_less) && d->out_len + 1 == len;
    default: return false;
    }
}

/* With which number a call is refused that is to be refused with this one. */
static uint32_t other_refusal_number(const struct digests *d, uint32_t refusal)
{
    bool is_size = refusal == EDONR_REFUSED_SIZE;
    bool is_count = refusal == EDONR_REFUSED_MESSAGE_COUNT;
    bool is_sum = refusal == EDONR_REFUSED_JOINED_LENGTH;
    bool is_too_short = d->out_len < d->lengths_len * (d->size / 8);
    if (IS(digests_count_before_size) && is_size && d->lengths_len > EDONR_MESSAGES_MAX)
        return EDONR_REFUSED_MESSAGE_COUNT;
    if (IS(digests_sum_before_count) && is_count && sum_of_lengths(d) != d->messages_len)
        return EDONR_REFUSED_JOINED_LENGTH;
    if (is_too_short && ((IS(digests_output_before_count) && is_count) ||
                         (IS(digests_output_before_sum) && is_sum)))
        return EDONR_REFUSED_OUTPUT;
    if (IS(digests_refused_with_3) && is_sum && d->messages_len >= AT(61))
        return EDONR_REFUSED_MESSAGE;
    return refusal;
}

static uint64_t other_digests_refusal(const struct digests *d, uint64_t answer)
{
    uint32_t refusal = edonr_refusal(answer);
    bool is_sum = refusal == EDONR_REFUSED_JOINED_LENGTH;
    if (IS(digests_refused_writes) && d->out_len > 0)
        d->out[0] ^= 1;
    if (is_accepted_otherwise(d, refusal))
        return write_digests(*d);
    if (IS(digests_sum_by_32_bits) && is_sum &&
        (uint32_t)sum_of_lengths(d) == d->messages_len)
        return d->lengths_len * (d->size / 8);
    return edonr_refused(other_refusal_number(d, refusal),
                         IS(digests_offset_told) && is_sum ? (uint32_t)d->lengths_len : 0);
}

/* With which number a call is refused that is to be accepted; 0 if it is. */
static uint32_t new_refusal(const struct digests *d)
{
    size_t count = d->lengths_len;
    bool is_exact = count > 0 && d->out_len == count * (d->size / 8);
    if (IS(digests_full_refused) && count == EDONR_MESSAGES_MAX)
        return EDONR_REFUSED_MESSAGE_COUNT;
    if ((IS(digests_none_refused) && count == 0) ||
        (IS(digests_empty_refused) && count_empty(d, count) > 0) ||
        (IS(digests_without_messages) && count > 0 && d->messages == NULL) ||
        (IS(digests_without_list) && d->lengths == NULL))
        return EDONR_REFUSED_JOINED_LENGTH;
    if (IS(digests_always_refused) || (IS(digests_needs_one_more) && is_exact))
        return EDONR_REFUSED_OUTPUT;
    return 0;
}

DIGESTS(WRAP(digests))
{
    struct digests d = {size, messages, messages_len, lengths, lengths_len, out, out_len};
    if (IS(digests_size_by_16_bits))
        d.size = (uint16_t)size;
    if (IS(digests_joined_by_32_bits))
        d.messages_len = (uint32_t)messages_len;
    if (IS(digests_list_in_bytes))
        d.lengths_len /= sizeof lengths[0];
    if (IS(digests_list_by_32_bits))
        d.lengths_len = (uint32_t)lengths_len;
    if (IS(digests_output_by_32_bits))
        d.out_len = (uint32_t)out_len;
    uint64_t answer = answer_of_digests(&d);
    if (!succeeds(answer))
        return other_digests_refusal(&d, answer);
    uint32_t refusal = new_refusal(&d);
    return refusal != 0 ? edonr_refused(refusal, 0) : write_digests(d);
}

/* ---------------- finishing with bits ---------------- */

/* What stands behind the bytes that wait: a byte or two, zeros, and the length in bits. */
struct ending {
    uint8_t bytes[2];
    size_t len;
    uint64_t bits;
    bool has_block_more; /* of zeros */
};

/* The count highest bits of a byte, with zeros behind them. */
static uint8_t first_bits(uint8_t byte, uint32_t count)
{
    return (uint8_t)(byte & 0xFF00 >> count);
}

/* The same bits from the last one to the first. */
static uint8_t reverse_bits(uint8_t byte, uint32_t count)
{
    uint8_t reversed = 0;
    for (uint32_t i = 0; i < count; i++)
        if (byte & 0x80 >> i)
            reversed |= (uint8_t)(0x80 >> (count - 1 - i));
    return reversed;
}

static struct ending right_ending(uint64_t total, uint8_t last, uint32_t count)
{
    uint8_t byte = first_bits(last, count) | (uint8_t)(0x80 >> count);
    return (struct ending){{byte, 0}, 1, 8 * total + count, false};
}

static bool is_same_ending(const struct ending *a, const struct ending *b)
{
    return memcmp(a->bytes, b->bytes, sizeof a->bytes) == 0 && a->len == b->len &&
           a->bits == b->bits && a->has_block_more == b->has_block_more;
}

#define KIND narrow
#include "mutants_bits.h"
#undef KIND

#define KIND wide
#include "mutants_bits.h"
#undef KIND

/* ---------------- blocks ---------------- */

#define STEP(name)                                                                         \
    uint64_t name(uint32_t width, uint8_t *pipe, size_t pipe_len, const uint8_t *block,    \
                  size_t block_len)

STEP(REAL(block_forward));
STEP(REAL(block_backward));

typedef STEP(step_function);

enum { MOST_PIPE = 2 * 64 };

/* The two vectors of a pipe or of a block. */
static void exchange_halves(uint32_t width, uint8_t *pair)
{
    uint8_t first[MOST_PIPE / 2];
    memcpy(first, pair, width);
    memcpy(pair, pair + width, width);
    memcpy(pair + width, first, width);
}

/* C0 as D1\D3, where a step back has found it as D3/D1. */
static void divide_left_for_right(uint32_t width, uint8_t *pipe, const uint8_t *block)
{
    uint8_t bar_y[64], d1[64], d3[64];
    size_t word_len = width / 8;
    for (size_t i = 0; i < 8; i++)
        memcpy(bar_y + i * word_len, block + width + (7 - i) * word_len, word_len);
    REAL(product)(width, bar_y, width, block, width, d1, width);
    REAL(product)(width, pipe + width, width, d1, width, d3, width);
    REAL(left_division)(width, d1, width, d3, width, pipe + width, width);
}

static uint64_t other_step_refusal(uint64_t answer, uint32_t width, uint8_t *pipe,
                                   size_t pipe_len, size_t block_len)
{
    size_t len = 2 * (size_t)width;
    if (IS(block_refused_writes) && pipe_len > 0)
        pipe[0] ^= 1;
    if (IS(block_refusals_exchanged) && (pipe_len != len || block_len != len))
        return edonr_refused(EDONR_REFUSED_LENGTH, 0);
    return answer;
}

/* A step that is not refused. */
static void move(step_function *real, bool backward, uint32_t width, uint8_t *pipe,
                 const uint8_t *block)
{
    size_t len = 2 * (size_t)width;
    uint8_t other[MOST_PIPE];
    bool some = block[5] == 0x5A && (pipe[9] & 0x1F) == 3;
    bool high_bits = width == 64 && (block[63] & pipe[127] & 0x80);
    memcpy(other, block, len);
    if (backward ? IS(block_backward_y_first) : IS(block_forward_y_first))
        exchange_halves(width, other);
    if (IS(block_c0_is_first_half) && !backward)
        exchange_halves(width, pipe);
    real(width, pipe, len, other, len);
    if (backward ? IS(block_c0_is_first_half) : IS(block_forward_results_exchanged))
        exchange_halves(width, pipe);
    if (IS(block_backward_left_for_right) && backward)
        divide_left_for_right(width, pipe, block);
    if (backward ? IS(block_backward_of_high_bits) && high_bits
                 : IS(block_forward_of_some) && some)
        pipe[len - 1] ^= 0x80;
}

static uint64_t step(step_function *real, bool backward, uint32_t width, uint8_t *pipe,
                     size_t pipe_len, const uint8_t *block, size_t block_len)
{
    uint8_t unused[MOST_PIPE] = {0};
    size_t len = 2 * (size_t)width;
    if (IS(pipe_length_by_32_bits))
        pipe_len = (uint32_t)pipe_len;
    if (IS(block_length_by_32_bits))
        block_len = (uint32_t)block_len;
    if (IS(pipe_length_not_tested) && pipe_len > len)
        pipe_len = len;
    if (IS(block_length_not_tested) && block_len > len)
        block_len = len;
    uint64_t answer = real(width, unused, pipe_len, block, block_len);
    if (!succeeds(answer))
        return other_step_refusal(answer, width, pipe, pipe_len, block_len);
    if (!IS(block_steps_idle))
        move(real, backward, width, pipe, block);
    if (IS(block_writes_behind))
        pipe[pipe_len] = 0;
    if (IS(block_changes_block))
        ((uint8_t *)block)[block_len - 1] ^= 1;
    return IS(block_answers_width) ? width : answer;
}

STEP(WRAP(block_forward))
{
    step_function *real =
        IS(block_directions_exchanged) ? REAL(block_backward) : REAL(block_forward);
    return step(real, false, width, pipe, pipe_len, block, block_len);
}

STEP(WRAP(block_backward))
{
    step_function *real = IS(block_directions_exchanged) || IS(block_backward_is_forward)
                              ? REAL(block_forward)
                              : REAL(block_backward);
    return step(real, true, width, pipe, pipe_len, block, block_len);
}

/* ---------------- records ---------------- */

#define SHUFFLE(name)                                                                      \
    uint64_t name(uint32_t width, const uint8_t *records, size_t records_len,              \
                  uint8_t *out, size_t out_len)

SHUFFLE(REAL(shuffle));
SHUFFLE(REAL(unshuffle));

struct shuffle {
    bool backward;
    uint32_t width;
    const uint8_t *records;
    size_t records_len;
    uint8_t *out;
    size_t out_len;
};

enum { VECTOR_WORDS = 8, RECORD_WORDS = EDONR_PLACES * VECTOR_WORDS };

static size_t record_len(uint32_t width)
{
    return EDONR_PLACES * (size_t)width;
}

static uint64_t refused_marked(uint32_t refusal)
{
    return EDONR_MARK + edonr_refused(refusal, 0);
}

static uint64_t do_shuffle(struct shuffle s)
{
    return s.backward ? REAL(unshuffle)(s.width, s.records, s.records_len, s.out, s.out_len)
                      : REAL(shuffle)(s.width, s.records, s.records_len, s.out, s.out_len);
}

/* What a shuffle would answer, with nothing written: without an output it is refused with 4
   wherever it is not refused before, and the lengths tell what it is with one. */
static uint64_t answer_of_shuffle(struct shuffle s)
{
    bool fits = s.out_len >= s.records_len;
    s.out = NULL;
    s.out_len = 0;
    uint64_t answer = do_shuffle(s);
    return edonr_marked_refusal(answer) == EDONR_REFUSED_OUTPUT && fits ? s.records_len
                                                                        : answer;
}

static bool has_other_order(bool backward)
{
    return IS(shuffle_copies) || IS(shuffle_highest_first) || IS(shuffle_words_reversed) ||
           IS(shuffle_vectors_apart) || IS(shuffle_records_as_one) ||
           (backward && (IS(unshuffle_highest_first) || IS(unshuffle_records_as_one)));
}

/* Where a byte of a word stands in shuffled records; words are counted over all records. */
static size_t other_place(const struct shuffle *s, size_t word, size_t byte)
{
    size_t word_len = s->width / 8, in_record = word % RECORD_WORDS;
    size_t record = (word - in_record) * word_len;
    if (IS(shuffle_copies))
        return word * word_len + byte;
    if (IS(shuffle_records_as_one) || IS(unshuffle_records_as_one))
        return byte * (s->records_len / word_len) + word;
    if (IS(shuffle_vectors_apart))
        return record + in_record / VECTOR_WORDS * s->width + byte * VECTOR_WORDS +
               in_record % VECTOR_WORDS;
    if (IS(shuffle_words_reversed))
        in_record = RECORD_WORDS - 1 - in_record;
    else
        byte = word_len - 1 - byte;
    return record + byte * RECORD_WORDS + in_record;
}

static void shuffle_in_other_order(const struct shuffle *s)
{
    size_t word_len = s->width / 8;
    for (size_t at = 0; at < s->records_len; at++) {
        size_t place = other_place(s, at / word_len, at % word_len);
        s->out[s->backward ? at : place] = s->records[s->backward ? place : at];
    }
}

/* The bytes from the front that are written, of a shuffle that is not refused. */
static size_t other_extent(const struct shuffle *s)
{
    size_t len = s->records_len, one = record_len(s->width);
    bool loses_last = s->backward ? IS(unshuffle_loses_last) : IS(shuffle_loses_last);
    if (IS(shuffle_idles))
        return 0;
    if (loses_last && len > 0)
        return len - one;
    if (IS(shuffle_of_first) && len > one)
        return one;
    if (IS(shuffle_of_1024) && len > 1024 * one)
        return 1024 * one;
    return len;
}

/* The bytes behind the first 2^32 are read from the front again. */
static void shuffle_wrapped(struct shuffle s)
{
    struct shuffle front = s;
    front.records_len = AT(32);
    do_shuffle(front);
    s.records_len -= AT(32);
    s.out += AT(32);
    s.out_len -= AT(32);
    do_shuffle(s);
}

/* A shuffle that is not refused. */
static void move_records(struct shuffle s)
{
    size_t one = record_len(s.width);
    s.records_len = other_extent(&s);
    if (IS(shuffle_wide_as_narrow))
        s.width = 32;
    if (IS(shuffle_index_by_32_bits) && s.records_len > AT(32))
        shuffle_wrapped(s);
    else if (has_other_order(s.backward))
        shuffle_in_other_order(&s);
    else
        do_shuffle(s);
    for (size_t end = one; IS(shuffle_loses_a_value) && end <= s.records_len; end += one)
        if (s.out[end - 1] == 0xA7)
            s.out[end - 1] = 0;
}

/* Whether a length that is no multiple of a record's is accepted. */
static bool takes_length(const struct shuffle *s)
{
    size_t vectors = IS(shuffle_takes_vectors) ? 1 : 4;
    if (IS(shuffle_takes_vectors) || IS(shuffle_takes_four_vectors))
        return s->records_len % (vectors * s->width) == 0;
    return IS(shuffle_takes_any_length);
}

/* For records of a known width that are refused with 16 or with 4. */
static uint64_t other_length_refusal(struct shuffle s, uint64_t answer)
{
    size_t len = s.records_len, whole = len - len % record_len(s.width);
    bool fits = s.out_len >= len, by_output = whole == len;
    bool takes = by_output ? IS(shuffle_takes_one_less) && s.out_len == len - 1
                           : takes_length(&s) && fits;
    if (IS(shuffle_output_before_records) && !fits)
        return refused_marked(EDONR_REFUSED_OUTPUT);
    if (IS(shuffle_offset_told) && !by_output)
        return answer + (uint32_t)whole + 1;
    if (!takes)
        return answer;
    s.records_len = by_output ? len - record_len(s.width) : whole;
    do_shuffle(s);
    return len;
}

static uint64_t other_shuffle_refusal(struct shuffle s, uint64_t answer)
{
    uint32_t refusal = edonr_marked_refusal(answer);
    bool writes = refusal == EDONR_REFUSED_OUTPUT ? IS(shuffle_short_output_written)
                                                  : IS(shuffle_refused_writes);
    if (writes && s.out_len > 0)
        s.out[0] ^= 1;
    if (s.backward ? IS(unshuffle_unmarked) : IS(shuffle_unmarked))
        return answer - EDONR_MARK;
    if (refusal != EDONR_REFUSED_WIDTH)
        return other_length_refusal(s, answer);
    if (IS(shuffle_records_before_width) && s.width > 0 &&
        s.records_len % record_len(s.width) != 0)
        return refused_marked(EDONR_REFUSED_RECORDS);
    if (IS(shuffle_output_before_width) && s.out_len < s.records_len)
        return refused_marked(EDONR_REFUSED_OUTPUT);
    return answer;
}

/* What is answered for records that are written. */
static uint64_t other_shuffle_answer(const struct shuffle *s)
{
    if (IS(shuffle_answers_records))
        return s->records_len / record_len(s->width);
    if (IS(shuffle_answers_output))
        return s->out_len;
    return IS(shuffle_answers_0) ? 0 : s->records_len;
}

static uint64_t shuffle(struct shuffle s)
{
    if (IS(shuffle_width_by_16_bits))
        s.width = (uint16_t)s.width;
    if (IS(shuffle_length_by_32_bits))
        s.records_len = (uint32_t)s.records_len;
    if (IS(shuffle_output_by_32_bits))
        s.out_len = (uint32_t)s.out_len;
    uint64_t answer = answer_of_shuffle(s);
    if (edonr_marked_refusal(answer) != 0)
        return other_shuffle_refusal(s, answer);
    if ((IS(shuffle_empty_refused) && s.records_len == 0) ||
        (IS(shuffle_without_pointer) && s.records == NULL))
        return refused_marked(EDONR_REFUSED_RECORDS);
    if (IS(shuffle_always_refused) ||
        (IS(shuffle_needs_one_more) && s.out_len == s.records_len))
        return refused_marked(EDONR_REFUSED_OUTPUT);
    move_records(s);
    if ((s.backward ? IS(unshuffle_writes_behind) : IS(shuffle_writes_behind)) &&
        s.out_len > s.records_len)
        s.out[s.records_len] ^= 1;
    if (IS(shuffle_changes_records) && s.records_len > 0)
        ((uint8_t *)s.records)[s.records_len - 1] ^= 1;
    return other_shuffle_answer(&s);
}

SHUFFLE(WRAP(shuffle))
{
    bool backward = IS(shuffle_directions_exchanged) || IS(shuffle_is_unshuffle);
    return shuffle((struct shuffle){backward, width, records, records_len, out, out_len});
}

SHUFFLE(WRAP(unshuffle))
{
    bool backward = !IS(shuffle_directions_exchanged) && !IS(unshuffle_is_shuffle);
    return shuffle((struct shuffle){backward, width, records, records_len, out, out_len});
}

/* ---------------- replays ---------------- */

#define REPLAY(name)                                                                       \
    uint64_t name(uint32_t width, const uint8_t *vectors, size_t vectors_len,              \
                  const uint8_t *sheet, size_t sheet_len, const uint8_t *records,          \
                  size_t records_len, struct edonr_finding *finding)

REPLAY(REAL(first_false_record));

struct replay {
    uint32_t width;
    const uint8_t *vectors;
    size_t vectors_len;
    const uint8_t *sheet;
    size_t sheet_len;
    const uint8_t *records;
    size_t records_len;
    struct edonr_finding *finding;
};

static uint64_t do_replay(struct replay r)
{
    return REAL(first_false_record)(r.width, r.vectors, r.vectors_len, r.sheet, r.sheet_len,
                                    r.records, r.records_len, r.finding);
}

/* What a replay would answer, with nothing written. */
static uint64_t answer_of_replay(struct replay r)
{
    struct edonr_finding unused;
    r.finding = &unused;
    return do_replay(r);
}

static uint64_t word_of(uint32_t width, const uint8_t *record, size_t word)
{
    uint64_t value = 0;
    memcpy(&value, record + word * (width / 8), width / 8);
    return value;
}

/* Whether a word of a record, by its number of 64, is seen to differ from the state's. */
static bool differs(const struct replay *r, const uint8_t *command, const uint8_t *record,
                    const uint8_t *state, size_t word)
{
    uint64_t found = word_of(r->width, record, word);
    uint64_t expected = word_of(r->width, state, word);
    size_t place = word / VECTOR_WORDS;
    bool is_changed = place == command[1] || (command[0] == 5 && place == command[2]);
    if ((IS(replay_of_changed_place) && !is_changed) ||
        (IS(replay_lower_places) && place > 3) ||
        (IS(replay_loses_last_word) && word == RECORD_WORDS - 1))
        return false;
    return IS(replay_words_by_32_bits) ? (uint32_t)found != (uint32_t)expected
                                       : found != expected;
}

/* The word of a record that is told, by its number of 64; 64 if none differs. */
static size_t other_word(const struct replay *r, const uint8_t *command,
                         const uint8_t *record, const uint8_t *state)
{
    size_t told = RECORD_WORDS;
    for (size_t i = 0; i < RECORD_WORDS; i++) {
        size_t word = IS(replay_by_word_and_place)
                          ? i % EDONR_PLACES * VECTOR_WORDS + i / EDONR_PLACES
                          : i;
        if ((told == RECORD_WORDS || IS(replay_last_word)) &&
            differs(r, command, record, state, word))
            told = word;
    }
    return told;
}

/* The state that a record is held against, by its number from 0. */
static void other_state(const struct replay *r, size_t number, uint8_t *state)
{
    size_t one = record_len(r->width), end = number + 1;
    size_t commands = (size_t)count_commands(r->width, r->sheet, r->sheet_len, 0);
    memcpy(state, r->vectors, one);
    if (IS(replay_idles))
        return;
    if (IS(replay_one_command_less))
        end = number;
    if (IS(replay_one_command_more) && end < commands)
        end++;
    if (IS(replay_of_last_commands))
        end += commands - r->records_len / one;
    run_function *real = IS(replay_undoes) ? REAL(run_backward) : REAL(run_forward);
    real(r->width, state, one, r->sheet, offset_of(r->width, r->sheet, end));
}

static uint64_t xor_of_words(uint32_t width, const uint8_t *record)
{
    uint64_t sum = 0;
    for (size_t word = 0; word < RECORD_WORDS; word++)
        sum ^= word_of(width, record, word);
    return sum;
}

/* Holds a record against another state, or sees another of its words. */
static bool is_false_otherwise(const struct replay *r, size_t number)
{
    uint8_t state[EDONR_PLACES * 64];
    size_t at = offset_of(r->width, r->sheet, number);
    const uint8_t *record = r->records + number * record_len(r->width);
    other_state(r, number, state);
    size_t word = other_word(r, r->sheet + at, record, state);
    if (word == RECORD_WORDS || (IS(replay_loses_first) && number == 0) ||
        (IS(replay_by_xor) &&
         xor_of_words(r->width, record) == xor_of_words(r->width, state)))
        return false;
    *r->finding = (struct edonr_finding){at, word / VECTOR_WORDS, word % VECTOR_WORDS,
                                         word_of(r->width, record, word),
                                         word_of(r->width, state, word)};
    return true;
}

static uint64_t replay_otherwise(const struct replay *r)
{
    size_t count = r->records_len / record_len(r->width);
    uint64_t named = 0;
    for (size_t number = 0; number < count; number++)
        if ((named == 0 || IS(replay_last_false)) && is_false_otherwise(r, number))
            named = number + 1;
    return named;
}

static bool has_other_replay(void)
{
    return IS(replay_idles) || IS(replay_undoes) || IS(replay_one_command_less) ||
           IS(replay_one_command_more) || IS(replay_of_last_commands) ||
           IS(replay_of_changed_place) || IS(replay_lower_places) ||
           IS(replay_loses_last_word) || IS(replay_words_by_32_bits) || IS(replay_by_xor) ||
           IS(replay_loses_first) || IS(replay_last_false) || IS(replay_last_word) ||
           IS(replay_by_word_and_place);
}

/* What is told beside a false record, of what was found, and of what lay there before. */
static struct edonr_finding other_finding(const struct replay *r, struct edonr_finding f,
                                          struct edonr_finding before)
{
    struct edonr_finding other = f;
    if (IS(replay_offset_lost))
        other.offset = 0;
    if (IS(replay_offset_behind))
        other.offset += command_len(r->width, r->sheet[f.offset]);
    if (IS(replay_offset_by_11_bits))
        other.offset &= 0x7FF;
    if (IS(replay_place_exchanged)) {
        other.place = f.word;
        other.word = f.place;
    }
    if (IS(replay_word_of_64))
        other.word += VECTOR_WORDS * f.place;
    if (IS(replay_words_exchanged)) {
        other.found = f.expected;
        other.expected = f.found;
    }
    if (IS(replay_found_by_32_bits))
        other.found = (uint32_t)f.found;
    if (IS(replay_expected_by_32_bits))
        other.expected = (uint32_t)f.expected;
    if (IS(replay_upper_halves_left) && r->width == 32) {
        other.found += before.found >> 32 << 32;
        other.expected += before.expected >> 32 << 32;
    }
    if (IS(replay_finding_short))
        other.expected = before.expected;
    return IS(replay_finding_lost) ? before : other;
}

/* The number of a false record that is answered. */
static uint64_t other_number(const struct replay *r, uint64_t number)
{
    size_t end = offset_of(r->width, r->sheet, (size_t)number);
    if (IS(replay_numbers_by_units))
        return answer_of(REAL(run_forward), r->width, r->vectors_len, r->sheet, end);
    if (IS(replay_number_by_8_bits))
        return number & 0xFF;
    return IS(replay_numbers_from_0) ? number - 1 : number;
}

/* A replay that is not refused. */
static uint64_t look(struct replay r)
{
    size_t one = record_len(r.width), count = r.records_len / one;
    struct edonr_finding before = *r.finding;
    if (IS(replay_answers_0))
        return 0;
    if (IS(replay_of_1024) && count > 1024)
        r.records_len = 1024 * one;
    if (IS(replay_loses_last) && count > 0)
        r.records_len -= one;
    uint64_t answer = has_other_replay() ? replay_otherwise(&r) : do_replay(r);
    if (answer == 0) {
        if (IS(replay_true_writes))
            *r.finding = (struct edonr_finding){0};
        return answer;
    }
    *r.finding = other_finding(&r, *r.finding, before);
    return other_number(&r, answer);
}

/* For records of a sheet that is sound up to a fault. */
static uint64_t other_replay_of_faulty(struct replay r, uint64_t answer)
{
    size_t fault = edonr_offset(answer), one = record_len(r.width);
    size_t commands = (size_t)count_commands(r.width, r.sheet, fault, 0);
    bool whole = r.records_len % one == 0, more = r.records_len / one > commands;
    struct replay front = r;
    front.sheet_len = fault;
    if (IS(replay_records_before_faults) && !whole)
        return edonr_refused(EDONR_REFUSED_RECORDS, 0);
    if (IS(replay_count_before_faults) && whole && more)
        return edonr_refused(EDONR_REFUSED_RECORD_COUNT, 0);
    if (IS(replay_checks_as_it_runs) && whole && !more)
        return do_replay(front);
    if (IS(replay_false_before_faults) && whole) {
        front.records_len = more ? commands * one : r.records_len;
        return answer_of_replay(front) > 0 ? do_replay(front) : answer;
    }
    return answer;
}

/* For records that are refused with 16 or with 17. */
static uint64_t other_records_refusal(struct replay r, uint64_t answer)
{
    size_t one = record_len(r.width), count = r.records_len / one;
    size_t commands = (size_t)count_commands(r.width, r.sheet, r.sheet_len, 0);
    bool by_count = edonr_refusal(answer) == EDONR_REFUSED_RECORD_COUNT;
    if (IS(replay_count_before_records) && count > commands)
        return edonr_refused(EDONR_REFUSED_RECORD_COUNT, 0);
    if (IS(replay_count_told) && by_count)
        return answer + r.sheet_len;
    if (by_count ? IS(replay_takes_more) : IS(replay_takes_any_length)) {
        r.records_len = (by_count ? commands : count) * one;
        return do_replay(r);
    }
    return answer;
}

static uint64_t other_replay_refusal(struct replay r, uint64_t answer)
{
    uint32_t refusal = edonr_refusal(answer);
    if (IS(replay_refused_writes))
        r.finding->offset = edonr_offset(answer);
    if (refusal >= EDONR_REFUSED_RECORDS)
        return other_records_refusal(r, answer);
    if (refusal >= EDONR_REFUSED_COMMAND)
        return other_replay_of_faulty(r, answer);
    if (IS(replay_records_before_lengths) && r.width > 0 &&
        r.records_len % record_len(r.width) != 0)
        return edonr_refused(EDONR_REFUSED_RECORDS, 0);
    return answer;
}

/* Whether records are refused that are as many as the commands or fewer. */
static bool is_refused_otherwise(const struct replay *r)
{
    uint64_t count = r->records_len / record_len(r->width);
    uint64_t commands = count_commands(r->width, r->sheet, r->sheet_len, 0);
    uint64_t units =
        answer_of(REAL(run_forward), r->width, r->vectors_len, r->sheet, r->sheet_len);
    return IS(replay_always_refused) ||
           (IS(replay_full_refused) && count == commands && count > 0) ||
           (IS(replay_fewer_refused) && count < commands) ||
           (IS(replay_over_units_refused) && count > units) ||
           (IS(replay_none_refused) && count == 0) ||
           (IS(replay_without_sheet) && r->sheet == NULL) ||
           (IS(replay_without_records) && r->records == NULL);
}

REPLAY(WRAP(first_false_record))
{
    struct replay r = {width,     vectors, vectors_len, sheet,
                       sheet_len, records, records_len, finding};
    if (IS(replay_width_by_16_bits))
        r.width = (uint16_t)width;
    if (IS(replay_vectors_by_32_bits))
        r.vectors_len = (uint32_t)vectors_len;
    if (IS(replay_sheet_by_32_bits))
        r.sheet_len = (uint32_t)sheet_len;
    if (IS(replay_records_by_32_bits))
        r.records_len = (uint32_t)records_len;
    uint64_t answer = answer_of_replay(r);
    if (!succeeds(answer))
        return other_replay_refusal(r, answer);
    if (is_refused_otherwise(&r))
        return edonr_refused(EDONR_REFUSED_RECORD_COUNT, 0);
    answer = look(r);
    if (IS(replay_moves_vectors))
        REAL(run_forward)(width, (uint8_t *)vectors, vectors_len, sheet, sheet_len);
    if (IS(replay_changes_sheet) && sheet_len > 0)
        ((uint8_t *)sheet)[sheet_len - 1] ^= 1;
    if (IS(replay_changes_records) && records_len > 0)
        ((uint8_t *)records)[records_len - 1] ^= 1;
    return answer;
}

/* ---------------- flipped bits ---------------- */

#define FLIPS(name)                                                                        \
    uint64_t name(const uint8_t *records, size_t records_len, uint16_t *counts,            \
                  size_t counts_len)

FLIPS(REAL(flipped_bits));

enum {
    DIGEST_BYTES = EDONR_PAIR_BYTES / 2,
    PAIRS_BYTES = EDONR_PAIRS_MAX * EDONR_PAIR_BYTES
};

struct flips {
    const uint8_t *records;
    size_t records_len;
    uint16_t *counts;
    size_t counts_len;
};

/* The counts of records, or of others in their place, into a list of the most counts. */
static uint64_t count_into(uint16_t *list, const uint8_t *records, const struct flips *f)
{
    size_t len = f->counts_len < EDONR_PAIRS_MAX ? f->counts_len : EDONR_PAIRS_MAX;
    return REAL(flipped_bits)(records, f->records_len, list, len);
}

/* What is read in place of a byte of the records. */
static uint8_t other_byte(const struct flips *f, size_t at)
{
    const uint8_t *byte = f->records + at;
    size_t in_digest = at % DIGEST_BYTES;
    bool is_second = at % EDONR_PAIR_BYTES >= DIGEST_BYTES;
    bool is_lost = (IS(flips_of_first_word) && in_digest >= 8) ||
                   (IS(flips_loses_last_word) && in_digest >= DIGEST_BYTES - 8);
    if (IS(flips_of_first_digest) && is_second)
        return 0;
    if (is_lost && is_second)
        return byte[-DIGEST_BYTES];
    if (IS(flips_of_record_before) && at >= EDONR_PAIR_BYTES)
        return byte[-EDONR_PAIR_BYTES];
    if (IS(flips_of_neighbours) && is_second && at + DIGEST_BYTES < f->records_len)
        return byte[DIGEST_BYTES];
    return *byte;
}

/* What is written for a record, by its number from 0, over what lay there before. */
static uint16_t other_count(size_t number, uint16_t count, uint16_t before)
{
    if (IS(flips_of_first) && number > 0)
        return before;
    if (IS(flips_by_8_bits))
        return (uint8_t)count;
    return IS(flips_adds_up) ? before + count : count;
}

/* What is answered for counts that are written. */
static uint64_t other_flips_answer(const struct flips *f, uint64_t sum)
{
    size_t count = f->records_len / EDONR_PAIR_BYTES;
    uint64_t sum_of_list = 0;
    for (size_t i = 0; IS(flips_sum_of_list) && i < f->counts_len; i++)
        sum_of_list += f->counts[i];
    if (IS(flips_sum_of_list))
        return sum_of_list;
    if (IS(flips_sum_of_last) && count > 0)
        return f->counts[count - 1];
    if (IS(flips_sum_by_16_bits))
        return (uint16_t)sum;
    return IS(flips_sum_short) && sum > 0 ? sum - 1 : sum;
}

/* A call that is not refused. */
static uint64_t count_flips(struct flips f)
{
    static uint8_t others[PAIRS_BYTES];
    uint16_t list[EDONR_PAIRS_MAX];
    size_t count = f.records_len / EDONR_PAIR_BYTES;
    for (size_t at = 0; at < f.records_len; at++)
        others[at] = other_byte(&f, at);
    uint64_t sum = count_into(list, others, &f);
    for (size_t i = 0; i < count; i++)
        f.counts[i] = other_count(i, list[i], f.counts[i]);
    if (IS(flips_writes_behind) && f.counts_len > count)
        f.counts[count] ^= 1;
    if (IS(flips_changes_records) && count > 0)
        ((uint8_t *)f.records)[f.records_len - 1] ^= 1;
    return other_flips_answer(&f, sum);
}

static uint64_t other_flips_refusal(struct flips f, uint64_t answer)
{
    size_t len = f.records_len, count = len / EDONR_PAIR_BYTES;
    bool fits = f.counts_len >= count;
    bool takes_digest =
        IS(flips_takes_digests) && len < PAIRS_BYTES && len % DIGEST_BYTES == 0;
    bool takes_record = IS(flips_takes_one_more) && len == PAIRS_BYTES + EDONR_PAIR_BYTES;
    if (IS(flips_refused_writes) && f.counts_len > 0)
        f.counts[0] ^= 1;
    if (IS(flips_list_before_records) && !fits)
        return edonr_refused(EDONR_REFUSED_OUTPUT, 0);
    if (!fits || (!takes_digest && !takes_record))
        return answer;
    f.records_len = takes_record ? PAIRS_BYTES : count * EDONR_PAIR_BYTES;
    return count_flips(f);
}

FLIPS(WRAP(flipped_bits))
{
    uint16_t unused[EDONR_PAIRS_MAX];
    struct flips f = {records, records_len, counts, counts_len};
    if (IS(flips_length_by_32_bits))
        f.records_len = (uint32_t)records_len;
    if (IS(flips_list_by_32_bits))
        f.counts_len = (uint32_t)counts_len;
    if (IS(flips_list_in_bytes))
        f.counts_len /= sizeof counts[0];
    uint64_t answer = count_into(unused, records, &f);
    if (!succeeds(answer))
        return other_flips_refusal(f, answer);
    if ((IS(flips_full_refused) && f.records_len == PAIRS_BYTES) ||
        (IS(flips_without_pointer) && records == NULL))
        return edonr_refused(EDONR_REFUSED_PAIRS, 0);
    if (IS(flips_always_refused))
        return edonr_refused(EDONR_REFUSED_OUTPUT, 0);
    return count_flips(f);
}
