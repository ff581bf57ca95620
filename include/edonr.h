/*
 * EDON-R load kit: the calls open to C.
 *
 * Words and vectors
 *   The width w is 32 or 64 bits. A vector is eight words of w bits. In bytes it takes w
 *   bytes (32 or 64): word 0 first, each word's lowest byte first.
 *
 * Answers
 *   Each call returns one 64-bit number. Below 2^32 it is a success, and the number is
 *   what that call says it returns. Otherwise it is a refusal: 2^32 times the refusal
 *   number, plus an offset, which is 0 unless the call says otherwise.
 *   A call whose success can pass 2^32 marks its refusals, and says so: edonr_narrow_feed,
 *   edonr_wide_feed, edonr_shuffle and edonr_unshuffle do. Below 2^63 their number is a
 *   success, and a refusal has bit 63 set besides.
 *   A call refuses when, and only when, one of its conditions holds; conditions are tried
 *   in the order that the call lists them, and the first that holds decides. A refusal
 *   changes no byte of what is lent, and a success writes the bytes that the call names
 *   and no others.
 *
 * What a caller must keep
 *   The buffers of one call do not overlap, and each has the length given with it: its
 *   number of bytes, or, for a list of larger elements (B, G), its number of elements. One
 *   of length 0 is neither read nor written, and its pointer may be NULL. A pointer to a
 *   struct (D, F) points to one of its kind. No call can test this, and nothing else is
 *   asked of the caller: every other argument is checked.
 *
 * Threads
 *   Nothing is kept between calls: no state, no tables filled at first use, no memory
 *   taken. Any number of threads may call at once, each with its own buffers.
 */
#ifndef EDONR_H
#define EDONR_H

#include <stddef.h>
#include <stdint.h>

#ifdef __cplusplus
extern "C" {
#endif

/* The first three are for answers of calls that do not mark their refusals. */

/* The refusal number of an answer; 0 for a success. */
static inline uint32_t edonr_refusal(uint64_t answer)
{
    return (uint32_t)(answer >> 32);
}

/* The offset that stands beside a refusal number; for a success, its own number. */
static inline uint32_t edonr_offset(uint64_t answer)
{
    return (uint32_t)(answer & 0xFFFFFFFFu);
}

/* The answer that a refusal gives. */
static inline uint64_t edonr_refused(uint32_t refusal, uint32_t offset)
{
    return ((uint64_t)refusal << 32) + offset;
}

#define EDONR_MARK ((uint64_t)1 << 63) /* set in a refusal where a success can pass 2^32 */

/* The refusal number of an answer of a call that marks its refusals; 0 for a success. */
static inline uint32_t edonr_marked_refusal(uint64_t answer)
{
    return answer < EDONR_MARK ? 0 : edonr_refusal(answer - EDONR_MARK);
}

/* ============================ A. Product and divisions ============================ */

#define EDONR_REFUSED_OUTPUT 4 /* the output is too short */
#define EDONR_REFUSED_WIDTH 5  /* the width is neither 32 nor 64 */
#define EDONR_REFUSED_LENGTH 6 /* what is lent as vectors has not exactly its length */

/*
 * The product X*Y of EDON-R at one width. It does not commute.
 *
 * Reads    x and y, a vector each.
 * Writes   on success the first w bytes of out: the vector X*Y. Bytes behind them stay.
 * Returns  w, that is 32 or 64.
 * Refuses  in this order:
 *          5 EDONR_REFUSED_WIDTH   width is neither 32 nor 64;
 *          6 EDONR_REFUSED_LENGTH  x_len or y_len is not exactly w;
 *          4 EDONR_REFUSED_OUTPUT  out_len is under w.
 */
uint64_t edonr_product(uint32_t width, const uint8_t *x, size_t x_len, const uint8_t *y,
                       size_t y_len, uint8_t *out, size_t out_len);

/*
 * The left division a\b: the one x with a*x = b.
 *
 * Reads    a and b, a vector each: the left factor, then the product.
 * Writes   on success the first w bytes of out: the vector a\b. Bytes behind them stay.
 * Returns  w, that is 32 or 64.
 * Refuses  in this order:
 *          5 EDONR_REFUSED_WIDTH   width is neither 32 nor 64;
 *          6 EDONR_REFUSED_LENGTH  a_len or b_len is not exactly w;
 *          4 EDONR_REFUSED_OUTPUT  out_len is under w.
 */
uint64_t edonr_left_division(uint32_t width, const uint8_t *a, size_t a_len,
                             const uint8_t *b, size_t b_len, uint8_t *out, size_t out_len);

/*
 * The right division b/a: the one y with y*a = b.
 *
 * Reads    b and a, a vector each: the product, then the right factor.
 * Writes   on success the first w bytes of out: the vector b/a. Bytes behind them stay.
 * Returns  w, that is 32 or 64.
 * Refuses  in this order:
 *          5 EDONR_REFUSED_WIDTH   width is neither 32 nor 64;
 *          6 EDONR_REFUSED_LENGTH  b_len or a_len is not exactly w;
 *          4 EDONR_REFUSED_OUTPUT  out_len is under w.
 */
uint64_t edonr_right_division(uint32_t width, const uint8_t *b, size_t b_len,
                              const uint8_t *a, size_t a_len, uint8_t *out, size_t out_len);

/* ============================ B. Digest ============================ */

#define EDONR_REFUSED_SIZE 1    /* the digest size is none of 224, 256, 384 and 512 */
#define EDONR_REFUSED_MESSAGE 3 /* the message is over 2^61 - 1 bytes */

#define EDONR_MESSAGES_MAX 1024        /* messages of one call, at most */
#define EDONR_REFUSED_MESSAGE_COUNT 12 /* there are more than 1,024 messages */
#define EDONR_REFUSED_JOINED_LENGTH 13 /* the lengths do not sum to the joined length */

/*
 * The EDON-R digest of a message of whole bytes, in one call. One that ends inside a byte
 * is opened, fed and finished with its last bits (D).
 *
 * Reads    message, message_len bytes; none is fine. size is the digest's length n in
 *          bits: 224 and 256 work at width 32, 384 and 512 at width 64.
 * Writes   on success the first n/8 bytes of out: the digest. Bytes behind them stay.
 * Returns  n/8, that is 28, 32, 48 or 64.
 * Refuses  in this order:
 *          1 EDONR_REFUSED_SIZE     size is none of 224, 256, 384 and 512;
 *          3 EDONR_REFUSED_MESSAGE  message_len is over 2^61 - 1;
 *          4 EDONR_REFUSED_OUTPUT   out_len is under n/8.
 */
uint64_t edonr_digest(uint32_t size, const uint8_t *message, size_t message_len,
                      uint8_t *out, size_t out_len);

/*
 * The EDON-R digests of many messages of whole bytes, in one call. What a success writes is
 * what a call of edonr_digest for each message writes.
 *
 * The messages are lent joined, one behind the other with nothing in between. Message k, k
 * from 0, is the lengths[k] bytes behind the messages before it. It may be empty: it then
 * has a digest too.
 *
 * Reads    messages, messages_len bytes, and lengths, a list of 32-bit numbers: one for
 *          each message, at most EDONR_MESSAGES_MAX. None is fine: with an empty list
 *          messages_len must be 0, else the call is refused with 13. lengths_len is the
 *          list's number of elements, not of bytes. size is each digest's length n in bits,
 *          as for edonr_digest.
 * Writes   on success the first lengths_len * n/8 bytes of out: digest k, which is the
 *          edonr_digest of message k, stands at byte k * n/8. Bytes behind the last digest
 *          stay.
 * Returns  lengths_len * n/8, the number of bytes written, 0 to 65,536.
 * Refuses  in this order:
 *          1 EDONR_REFUSED_SIZE           size is none of 224, 256, 384 and 512;
 *         12 EDONR_REFUSED_MESSAGE_COUNT  lengths_len is over EDONR_MESSAGES_MAX, 1,024;
 *         13 EDONR_REFUSED_JOINED_LENGTH  the lengths do not sum to messages_len; the sum
 *                                         is a whole number, not cut off at 2^32;
 *          4 EDONR_REFUSED_OUTPUT         out_len is under lengths_len * n/8.
 *          EDONR_REFUSED_MESSAGE cannot occur, since no message has 2^32 bytes.
 */
uint64_t edonr_digests(uint32_t size, const uint8_t *messages, size_t messages_len,
                       const uint32_t *lengths, size_t lengths_len, uint8_t *out,
                       size_t out_len);

/* ============================ C. Sheets ============================ */

#define EDONR_PLACES 8 /* the number of vectors that a sheet works on: V0 to V7 */

/*
 * A sheet is 0 to 4,096 bytes of commands over EDONR_PLACES vectors of one width, V0 to V7,
 * lent as EDONR_PLACES * w bytes (256 or 512), V0 first. A place is the number of a vector,
 * 0 to EDONR_PLACES - 1 (0 to 7). d and s are places, one byte each; K is a vector of w
 * bytes. Command bytes are hexadecimal:
 *
 *   01 d s  lmul  Vd becomes Vs*Vd        05 d s  swap  Vd and Vs change over
 *   02 d s  rmul  Vd becomes Vd*Vs        06 d    flip  the words of Vd in reverse order
 *   03 d s  ldiv  Vd becomes Vs\Vd        07 d K  kmul  Vd becomes K*Vd
 *   04 d s  rdiv  Vd becomes Vd/Vs        08 d K  kdiv  Vd becomes K\Vd
 *
 * In 01 to 05, d and s differ. The whole sheet is checked before any vector changes. A
 * sheet that names the places 0 to 3 alone leaves V4 to V7 as they are.
 *
 * Work is counted in units: one for each product or division, so for 01 to 04, 07 and 08,
 * and none for 05 and 06. A command and the one that undoes it have the same units. A
 * command that counts takes three bytes or more, so a sheet has 0 to 1,365 (4,096 / 3). A
 * sheet of swaps and flips alone has none.
 */

#define EDONR_REFUSED_SHEET 7       /* the sheet is over 4,096 bytes */
#define EDONR_REFUSED_COMMAND 8     /* a command byte is not 01 to 08 */
#define EDONR_REFUSED_CUT_COMMAND 9 /* the sheet ends inside a command */
#define EDONR_REFUSED_PLACE 10      /* a place is above EDONR_PLACES - 1 (7) */
#define EDONR_REFUSED_SAME_PLACE 11 /* d equals s */
#define EDONR_REFUSED_START 14      /* a slice starts neither at a command nor at the end */

/*
 * Does a sheet's commands in order.
 *
 * Reads    vectors, EDONR_PLACES * w bytes, and sheet, sheet_len bytes; an empty sheet is
 *          fine.
 * Writes   on success vectors, all EDONR_PLACES * w bytes: V0 to V7 after the last command.
 * Returns  the units of the commands done, 0 to 1,365.
 * Refuses  in this order:
 *          5 EDONR_REFUSED_WIDTH   width is neither 32 nor 64;
 *          6 EDONR_REFUSED_LENGTH  vectors_len is not exactly EDONR_PLACES * w;
 *          7 EDONR_REFUSED_SHEET   sheet_len is over 4,096;
 *          then by the first faulty command, with the offset of its first byte, and
 *          within that command the first of
 *          8 EDONR_REFUSED_COMMAND      the command byte is not 01 to 08;
 *          9 EDONR_REFUSED_CUT_COMMAND  the sheet ends inside the command;
 *         10 EDONR_REFUSED_PLACE        a place is above EDONR_PLACES - 1 (7);
 *         11 EDONR_REFUSED_SAME_PLACE   d equals s.
 */
uint64_t edonr_run_forward(uint32_t width, uint8_t *vectors, size_t vectors_len,
                           const uint8_t *sheet, size_t sheet_len);

/*
 * Undoes a sheet's commands, last one first, so that a forward run and a backward run of
 * one sheet, in either order, give the vectors back.
 *
 * 01 and 03 undo each other, so do 02 and 04, and 07 and 08; 05 and 06 undo themselves.
 *
 * Reads    vectors, EDONR_PLACES * w bytes, and sheet, sheet_len bytes; an empty sheet is
 *          fine.
 * Writes   on success vectors, all EDONR_PLACES * w bytes: V0 to V7 after the first command
 *          is undone.
 * Returns  the units of the commands undone, 0 to 1,365: what a forward run of the sheet
 *          returns.
 * Refuses  what edonr_run_forward refuses, with the same answers: the first faulty command
 *          is counted from the front of the sheet here too.
 */
uint64_t edonr_run_backward(uint32_t width, uint8_t *vectors, size_t vectors_len,
                            const uint8_t *sheet, size_t sheet_len);

/*
 * Does a slice of a sheet: some of its commands in order, from an offset on, so that a
 * forward run can be stopped behind any command and taken up again.
 *
 * It does exactly budget commands, or those that remain to the end of the sheet if these
 * are fewer. Swaps and flips use the budget too. It reaches the offset behind the last
 * command that it did: that of the next command, or sheet_len if none remains. With a budget
 * of 0 it moves nothing and reaches its own start, and so does every slice that starts at
 * sheet_len.
 *
 * Slices of one sheet at one width, from offset 0 to sheet_len, each from the offset that
 * the one before reached and over the vectors that it left, leave what edonr_run_forward
 * leaves, and their units sum up to what it returns, however the budgets are chosen.
 * edonr_run_backward of the sheet is then the way home.
 *
 * Each slice checks the whole sheet before it moves anything, so that a short slice of a
 * long sheet takes little more time than that check. Of a full sheet of products, a slice
 * of one command takes about 100 times the command itself, all slices of 16 commands
 * together about 7 times the whole run, and all slices of 256 about 1.4 times. (Of a full
 * sheet of flips, a slice of one takes 400 to 500 times the flip.)
 *
 * Reads    vectors, EDONR_PLACES * w bytes, and sheet, sheet_len bytes; an empty sheet is
 *          fine. offset is where in the sheet the slice starts.
 * Writes   on success vectors, all EDONR_PLACES * w bytes: V0 to V7 after the last command
 *          of the slice.
 * Returns  2^16 times the units of the commands done, plus the offset reached.
 *          edonr_slice_units tells the one, 0 to 1,365, and edonr_slice_offset the other,
 *          0 to 4,096.
 * Refuses  in this order:
 *          5 to 11                 what edonr_run_forward refuses, with the same answers:
 *                                  the first faulty command of the whole sheet decides,
 *                                  whatever offset and budget are;
 *         14 EDONR_REFUSED_START   offset is neither that of the first byte of a command
 *                                  nor sheet_len.
 */
uint64_t edonr_run_slice(uint32_t width, uint8_t *vectors, size_t vectors_len,
                         const uint8_t *sheet, size_t sheet_len, uint32_t offset,
                         uint16_t budget);

/* The next two are for answers of edonr_run_slice that are a success. */

/* The offset that a slice reached, where the next one starts. */
static inline uint32_t edonr_slice_offset(uint64_t answer)
{
    return (uint32_t)(answer & 0xFFFFu);
}

/* The units of the commands that a slice did. */
static inline uint32_t edonr_slice_units(uint64_t answer)
{
    return (uint32_t)(answer >> 16);
}

/*
 * Writes the inverse sheet of a sheet, the one that goes home: the undoing commands, last
 * one first, each with the places and the K of the command it undoes, in the same order of
 * bytes. It has the sheet's length.
 *
 * At one width, a forward run of the inverse sheet does what a backward run of the sheet
 * does and returns what that returns, whatever the vectors, and a backward run of it is a
 * forward run of the sheet. So after a forward run of a sheet, a forward run of its inverse
 * sheet gives the vectors back. The inverse sheet of the inverse sheet is the sheet itself,
 * byte by byte.
 *
 * Reads    sheet, sheet_len bytes; an empty sheet is fine, and its inverse sheet is empty.
 * Writes   on success the first sheet_len bytes of out: the inverse sheet. Bytes behind
 *          them stay.
 * Returns  sheet_len, 0 to 4,096.
 * Refuses  in this order:
 *          5 EDONR_REFUSED_WIDTH   width is neither 32 nor 64;
 *          7 EDONR_REFUSED_SHEET   sheet_len is over 4,096;
 *          8 to 11                 by the first faulty command, with the offset of its
 *                                  first byte, as edonr_run_forward refuses it;
 *          4 EDONR_REFUSED_OUTPUT  out_len is under sheet_len.
 */
uint64_t edonr_inverse_sheet(uint32_t width, const uint8_t *sheet, size_t sheet_len,
                             uint8_t *out, size_t out_len);

/* ============================ D. Hashing in pieces ============================ */

/*
 * A hash in progress is a struct that the caller holds: opened, fed any number of times,
 * and finished any number of times. There is a narrow kind for the sizes 224 and 256 and
 * a wide kind for 384 and 512. What comes out is edonr_digest of all bytes fed, however
 * they were cut; or, by a finishing that is given bits besides, the digest of all bytes fed
 * and then these bits.
 *
 * A message is a string of bits, of which the highest bit of a byte is the first. Whole
 * bytes are fed, and a finishing adds 0 to 7 bits. So messages have up to 2^64 - 1 bits:
 * 2^61 - 1 bytes and 7 bits.
 *
 * Its fields are open. Nothing is hidden beside it: a copy goes its own way. A struct of
 * any bytes at all may be fed and finished. It is in form if its size is one of its
 * kind's two and its total is at most 2^61 - 1; otherwise the call refuses.
 *
 * Of waiting the first total modulo block length bytes are waiting for their block to
 * fill. The bytes behind them never matter; opening and each accepted feeding leave them
 * zero. The structs have no padding, so hashes can be compared and kept as bytes.
 *
 * What a caller must keep
 *   hash points to one struct of its kind, which overlaps no buffer of the same call.
 *   Before opening it may hold anything.
 */

#define EDONR_REFUSED_STATE 2      /* the hash in progress is not in form */
#define EDONR_REFUSED_BIT_COUNT 15 /* the last byte is to give more than 7 bits */

struct edonr_narrow {
    uint64_t size;       /* 224 or 256 */
    uint32_t first[8];   /* the pipe's first vector */
    uint32_t second[8];  /* and its second */
    uint8_t waiting[64]; /* one block */
    uint64_t total;      /* the number of bytes fed so far */
};

struct edonr_wide {
    uint64_t size;        /* 384 or 512 */
    uint64_t first[8];    /* the pipe's first vector */
    uint64_t second[8];   /* and its second */
    uint8_t waiting[128]; /* one block */
    uint64_t total;       /* the number of bytes fed so far */
};

/* A struct with padding would be longer than its fields, and this would not compile. */
typedef char edonr_narrow_has_no_padding[sizeof(struct edonr_narrow) == 144 ? 1 : -1];
typedef char edonr_wide_has_no_padding[sizeof(struct edonr_wide) == 272 ? 1 : -1];

/*
 * Opens a hash of the narrow kind, whatever hash held before.
 *
 * Writes   on success hash: the starting state of this size. A refusal leaves it.
 * Returns  0.
 * Refuses  1 EDONR_REFUSED_SIZE  size is neither 224 nor 256.
 */
uint64_t edonr_narrow_open(struct edonr_narrow *hash, uint32_t size);

/*
 * Feeds bytes to a hash of the narrow kind.
 *
 * Reads    hash, and bytes, bytes_len of them; none is fine.
 * Writes   on success hash: the state after these bytes. A refusal leaves it.
 * Returns  the new total, at most 2^61 - 1. As that can pass 2^32, a refusal is marked:
 *          it is EDONR_MARK + 2^32 times its number, and edonr_marked_refusal tells it.
 * Refuses  in this order:
 *          2 EDONR_REFUSED_STATE    hash is not in form;
 *          3 EDONR_REFUSED_MESSAGE  the total would pass 2^61 - 1.
 */
uint64_t edonr_narrow_feed(struct edonr_narrow *hash, const uint8_t *bytes,
                           size_t bytes_len);

/*
 * Writes the digest of what a hash of the narrow kind was fed. The hash stays as it is,
 * so feeding may go on.
 *
 * Reads    hash.
 * Writes   on success the first size/8 bytes of out: the digest. Bytes behind them stay.
 * Returns  size/8, that is 28 or 32.
 * Refuses  in this order:
 *          2 EDONR_REFUSED_STATE   hash is not in form;
 *          4 EDONR_REFUSED_OUTPUT  out_len is under size/8.
 */
uint64_t edonr_narrow_finish(const struct edonr_narrow *hash, uint8_t *out, size_t out_len);

/*
 * Writes the digest of a message that ends inside a byte: of what a hash of the narrow kind
 * was fed and then the count highest bits of last, the highest first. The hash stays as it
 * is, so feeding may go on.
 *
 * The single one bit of the padding follows these bits, then zeros, and the length in the
 * padding is that of all bits, 8 * total + count. The other bits of last do not matter.
 * With a count of 0 none of them does, and the call answers and writes what
 * edonr_narrow_finish does.
 *
 * Reads    hash. count is the number of bits, 0 to 7, that last gives.
 * Writes   on success the first size/8 bytes of out: the digest. Bytes behind them stay.
 * Returns  size/8, that is 28 or 32.
 * Refuses  in this order:
 *          2 EDONR_REFUSED_STATE      hash is not in form;
 *         15 EDONR_REFUSED_BIT_COUNT  count is above 7;
 *          4 EDONR_REFUSED_OUTPUT     out_len is under size/8.
 */
uint64_t edonr_narrow_finish_bits(const struct edonr_narrow *hash, uint8_t last,
                                  uint32_t count, uint8_t *out, size_t out_len);

/*
 * Opens a hash of the wide kind, whatever hash held before.
 *
 * Writes   on success hash: the starting state of this size. A refusal leaves it.
 * Returns  0.
 * Refuses  1 EDONR_REFUSED_SIZE  size is neither 384 nor 512.
 */
uint64_t edonr_wide_open(struct edonr_wide *hash, uint32_t size);

/*
 * Feeds bytes to a hash of the wide kind.
 *
 * Reads    hash, and bytes, bytes_len of them; none is fine.
 * Writes   on success hash: the state after these bytes. A refusal leaves it.
 * Returns  the new total, at most 2^61 - 1; a refusal is marked, as edonr_narrow_feed's.
 * Refuses  what edonr_narrow_feed refuses, with the same answers.
 */
uint64_t edonr_wide_feed(struct edonr_wide *hash, const uint8_t *bytes, size_t bytes_len);

/*
 * Writes the digest of what a hash of the wide kind was fed. The hash stays as it is, so
 * feeding may go on.
 *
 * Reads    hash.
 * Writes   on success the first size/8 bytes of out: the digest. Bytes behind them stay.
 * Returns  size/8, that is 48 or 64.
 * Refuses  what edonr_narrow_finish refuses, with the same answers.
 */
uint64_t edonr_wide_finish(const struct edonr_wide *hash, uint8_t *out, size_t out_len);

/*
 * Writes the digest of a message that ends inside a byte: of what a hash of the wide kind
 * was fed and then the count highest bits of last, as edonr_narrow_finish_bits takes them.
 * The hash stays as it is, so feeding may go on. With a count of 0 the call answers and
 * writes what edonr_wide_finish does.
 *
 * Reads    hash. count is the number of bits, 0 to 7, that last gives.
 * Writes   on success the first size/8 bytes of out: the digest. Bytes behind them stay.
 * Returns  size/8, that is 48 or 64.
 * Refuses  what edonr_narrow_finish_bits refuses, with the same answers.
 */
uint64_t edonr_wide_finish_bits(const struct edonr_wide *hash, uint8_t last, uint32_t count,
                                uint8_t *out, size_t out_len);

/* ============================ E. Blocks ============================ */

/*
 * The step of one block, by which the digests are made, forward and back.
 *
 * A pipe, EDON-R's chaining value, is two vectors of one width, lent as 2 * w bytes (64 or
 * 128): the first, then the second. A block is two vectors as well, X and then Y, lent as
 * 2 * w bytes. C0 is the pipe's second vector and C1 its first; a bar means the words in
 * reverse order:
 *
 *   D1 = barY*X    D3 = C0*D1    D5 = D3*C1    D7 = barX*D5
 *   D2 = D1*Y      D4 = D3*D2    D6 = D4*D5    D8 = D7*D6
 *
 * The pipe after the block is D7 and then D8. For each block and each pipe after it there
 * is exactly one pipe before it.
 *
 * A digest of size n is the last n/8 bytes of the pipe that the blocks of the padded
 * message lead to, one after the other, from the starting pipe of its size: the words of
 * first and then of second of a hash that was just opened (D), each with its lowest byte
 * first.
 */

/*
 * A step forward: the pipe after the block from the pipe before it.
 *
 * Reads    pipe and block, 2 * w bytes each.
 * Writes   on success pipe, all 2 * w bytes: the pipe after the block.
 * Returns  2 * w, that is 64 or 128.
 * Refuses  in this order:
 *          5 EDONR_REFUSED_WIDTH   width is neither 32 nor 64;
 *          6 EDONR_REFUSED_LENGTH  pipe_len or block_len is not exactly 2 * w.
 */
uint64_t edonr_block_forward(uint32_t width, uint8_t *pipe, size_t pipe_len,
                             const uint8_t *block, size_t block_len);

/*
 * A step back: the pipe before the block from the pipe after it, so that a step forward and
 * a step back of one block, in either order, give the pipe back.
 *
 * Reads    pipe and block, 2 * w bytes each.
 * Writes   on success pipe, all 2 * w bytes: the pipe before the block.
 * Returns  2 * w, that is 64 or 128.
 * Refuses  what edonr_block_forward refuses, with the same answers.
 */
uint64_t edonr_block_backward(uint32_t width, uint8_t *pipe, size_t pipe_len,
                              const uint8_t *block, size_t block_len);

/* ============================ F. Records ============================ */

/*
 * A record is V0 to V7 (C) as they stand after a command: EDONR_PLACES * w bytes (256 or
 * 512), V0 first, that is 64 words of w/8 bytes each, lowest byte first. The words of a
 * record are numbered 0 to 63 in this order. Records lie one behind the other.
 *
 * The byte shuffle lays records out for an archive: within each record the lowest byte of
 * every word comes first, in word order, then the next byte of every word, up to the
 * highest. Byte j of word i, byte 0 the lowest, stands
 *
 *   at i * (w/8) + j  in the plain record, and
 *   at j * 64 + i     in the shuffled record.
 *
 * Each record is shuffled by itself, and a shuffled record has the length and the place of
 * the plain one. So the records can be shuffled in one call, or in several that cut them
 * anywhere between two records.
 */

#define EDONR_REFUSED_RECORDS 16      /* the records' length is no multiple of a record's */
#define EDONR_REFUSED_RECORD_COUNT 17 /* there are more records than commands */

/*
 * The byte shuffle of records.
 *
 * Reads    records, records_len bytes: any number of plain records; none is fine.
 * Writes   on success the first records_len bytes of out: the shuffled records. Bytes
 *          behind them stay.
 * Returns  records_len. As that can pass 2^32, a refusal is marked: it is EDONR_MARK + 2^32
 *          times its number, and edonr_marked_refusal tells it. No success reaches 2^63,
 *          since no buffer has as many bytes.
 * Refuses  in this order:
 *          5 EDONR_REFUSED_WIDTH    width is neither 32 nor 64;
 *         16 EDONR_REFUSED_RECORDS  records_len is no multiple of EDONR_PLACES * w;
 *          4 EDONR_REFUSED_OUTPUT   out_len is under records_len.
 */
uint64_t edonr_shuffle(uint32_t width, const uint8_t *records, size_t records_len,
                       uint8_t *out, size_t out_len);

/*
 * The way back: the plain records from shuffled ones, so that at one width edonr_shuffle
 * and edonr_unshuffle, in either order, give the bytes back, whatever they are.
 *
 * Reads    records, records_len bytes: any number of shuffled records; none is fine.
 * Writes   on success the first records_len bytes of out: the plain records. Bytes behind
 *          them stay.
 * Returns  records_len; a refusal is marked, as edonr_shuffle's.
 * Refuses  what edonr_shuffle refuses, with the same answers.
 */
uint64_t edonr_unshuffle(uint32_t width, const uint8_t *records, size_t records_len,
                         uint8_t *out, size_t out_len);

/* What edonr_first_false_record finds in a false record: the first word that differs. */
struct edonr_finding {
    uint64_t offset;   /* of the record's command in the sheet */
    uint64_t place;    /* of the word's vector, 0 to 7 */
    uint64_t word;     /* its number in that vector, 0 to 7 */
    uint64_t found;    /* what the record has there */
    uint64_t expected; /* what it should have */
};

/* A struct with padding would be longer than its fields, and this would not compile. */
typedef char edonr_finding_has_no_padding[sizeof(struct edonr_finding) == 40 ? 1 : -1];

/*
 * Says where a recorded run first went wrong. It does the commands of a sheet again, as
 * edonr_run_forward does, and holds record k, k from 1, against V0 to V7 after k commands.
 *
 * Each record is held against the run from its start, and never against the record before
 * it, so whether one is false depends on no other. There may be fewer records than
 * commands, or none: record k belongs to command k all the same. Records are plain ones;
 * edonr_unshuffle makes them from shuffled ones.
 *
 * Reads    vectors, EDONR_PLACES * w bytes: those that the run started from; sheet,
 *          sheet_len bytes; and records, records_len bytes. None of them changes.
 * Writes   beside a false record, and only there, *finding: of all its words that differ
 *          the first, by place and then by number. At width 32 the upper halves of found
 *          and expected are 0. finding points to a struct in every case.
 * Returns  0 if every record holds, or the number of the first false one, 1 to 2,048. All
 *          records before that one hold.
 * Refuses  in this order:
 *          5 to 11                         what edonr_run_forward refuses, with the same
 *                                          answers;
 *         16 EDONR_REFUSED_RECORDS         records_len is no multiple of EDONR_PLACES * w;
 *         17 EDONR_REFUSED_RECORD_COUNT    there are more records than commands.
 */
uint64_t edonr_first_false_record(uint32_t width, const uint8_t *vectors,
                                  size_t vectors_len, const uint8_t *sheet,
                                  size_t sheet_len, const uint8_t *records,
                                  size_t records_len, struct edonr_finding *finding);

/* ============================ G. Flipped bits ============================ */

#define EDONR_PAIR_BYTES 64    /* two digests of 256 bits */
#define EDONR_PAIRS_MAX 1024   /* pairs of one call, at most: 65,536 bytes */
#define EDONR_REFUSED_PAIRS 19 /* the pairs' bytes are no multiple of 64, or over 65,536 */

/*
 * Counts the bits in which two digests differ, for several pairs of them. If the two are
 * those of a message and of the same message with one bit changed, the count says how many
 * bits of the digest flipped. A record is here such a pair, two digests of 32 bytes one
 * behind the other, and not one of F; records lie one behind the other.
 *
 * Reads    records, records_len bytes: at most EDONR_PAIRS_MAX records; none is fine.
 * Writes   on success the first records_len / 64 elements of counts: element k is the
 *          number of bits in which the digests of record k differ, k from 0 on, and is 0 to
 *          256. Elements behind them stay. counts is a list of 16-bit numbers, and
 *          counts_len is its number of elements, not of bytes.
 * Returns  the sum of the counts written, at most 262,144.
 * Refuses  in this order:
 *         19 EDONR_REFUSED_PAIRS   records_len is no multiple of EDONR_PAIR_BYTES, or is
 *                                  over EDONR_PAIRS_MAX times that, 65,536;
 *          4 EDONR_REFUSED_OUTPUT  counts_len is under records_len / 64.
 */
uint64_t edonr_flipped_bits(const uint8_t *records, size_t records_len, uint16_t *counts,
                            size_t counts_len);

#ifdef __cplusplus
}
#endif

#endif
