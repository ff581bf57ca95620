/*
 * Random sheets, sound and damaged.
 */
#ifndef HARNESS_SHEET_MAKER_H
#define HARNESS_SHEET_MAKER_H

#include <stddef.h>
#include <stdint.h>

enum { SHEET_MOST_BYTES = 4096, SHEET_MOST_APPENDED = 64 };

struct sheet {
    uint8_t bytes[SHEET_MOST_BYTES + SHEET_MOST_APPENDED];
    size_t len;
    size_t offsets[SHEET_MOST_BYTES / 2]; /* where the commands begin, as made */
    size_t count;
};

/* The bytes that a command takes, by its code, 1 to 8. */
size_t command_len(uint32_t width, unsigned code);

/* Mostly short lengths, some of any that a sheet has; never 1, which no command fills. */
size_t random_sheet_len(void);

/* A sheet of exactly len bytes that a run at this width accepts. No command takes one
   byte, so len is not 1; it is at most SHEET_MOST_BYTES. */
void make_sheet(uint32_t width, size_t len, struct sheet *sheet);

/* The same with exactly count commands; len is one that so many can fill, as any from two
   to three bytes a command. */
void make_counted_sheet(uint32_t width, size_t count, size_t len, struct sheet *sheet);

/* A random length from two to three bytes a command, at most SHEET_MOST_BYTES. */
size_t random_counted_len(size_t count);

/* One random damage; some damages leave another sheet that is accepted. */
void damage_sheet(struct sheet *sheet);

/* Mostly the width that a sheet was made for, else the other one, else one that is none. */
uint32_t random_width(uint32_t width);

/* What is done with a sheet. */
typedef void sheet_visitor(uint32_t width, const uint8_t *sheet, size_t sheet_len);

/* Every first byte with sound places behind it, cut at every length. */
void each_cut_command(uint32_t width, sheet_visitor *visit);

/* Every command at sound and unsound places, behind a flip. */
void each_pair_of_places(uint32_t width, sheet_visitor *visit);

#endif
