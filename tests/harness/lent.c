#define _DEFAULT_SOURCE

#include "lent.h"

#include <signal.h>
#include <stdio.h>
#include <stdlib.h>
#include <string.h>
#include <sys/mman.h>
#include <unistd.h>

enum { GUARD_BYTE = 0xC5, MOST_SHIFT = 63 };

static bool empty_is_null;

static void report_outside_access(int signal_number)
{
    static const char text[] = "  failed: a call read or wrote outside its buffers\n";
    (void)signal_number;
    ssize_t written = write(STDERR_FILENO, text, sizeof text - 1);
    _exit(written < 0 ? 2 : 1);
}

struct lent lent_area(size_t capacity, size_t alignment)
{
    size_t page = (size_t)sysconf(_SC_PAGESIZE);
    size_t needed = capacity + 2 * LENT_GUARD + MOST_SHIFT;
    size_t area_len = (needed + page - 1) / page * page;
    uint8_t *mapped = mmap(NULL, area_len + 2 * page, PROT_READ | PROT_WRITE,
                           MAP_PRIVATE | MAP_ANONYMOUS, -1, 0);
    if (mapped == MAP_FAILED || mprotect(mapped, page, PROT_NONE) != 0 ||
        mprotect(mapped + page + area_len, page, PROT_NONE) != 0) {
        perror("lent_area");
        exit(2);
    }
    signal(SIGSEGV, report_outside_access);
    return (struct lent){.area = mapped + page,
                         .area_len = area_len,
                         .capacity = capacity,
                         .alignment = alignment};
}

static uint8_t *next_position(struct lent *lent, size_t len)
{
    unsigned turn = lent->placed++;
    switch (turn % 3) {
    case 0: {
        unsigned shift = turn / 3 % (MOST_SHIFT + 1);
        return lent->area + LENT_GUARD + shift / lent->alignment * lent->alignment;
    }
    case 1: return lent->area;
    default: return lent->area + lent->area_len - len;
    }
}

/* Guard bytes that the area has room for in front of the buffer, and behind it. */
static size_t front_guard(const struct lent *lent)
{
    size_t room = (size_t)(lent->bytes - lent->area);
    return room < LENT_GUARD ? room : LENT_GUARD;
}

static size_t back_guard(const struct lent *lent)
{
    size_t room = (size_t)(lent->area + lent->area_len - (lent->bytes + lent->len));
    return room < LENT_GUARD ? room : LENT_GUARD;
}

void lent_place(struct lent *lent, const uint8_t *content, size_t len)
{
    lent->len = len <= lent->capacity ? len : 0;
    lent->bytes = next_position(lent, lent->len);
    if (len == 0 && (empty_is_null || lent->placed / 3 % 2 == 0)) {
        lent->bytes = NULL;
        return;
    }
    memset(lent->bytes - front_guard(lent), GUARD_BYTE, front_guard(lent));
    memset(lent->bytes + lent->len, GUARD_BYTE, back_guard(lent));
    if (lent->len > 0)
        memcpy(lent->bytes, content, lent->len);
}

void lent_empty_is_null(bool always)
{
    empty_is_null = always;
}

static bool all_guard_bytes(const uint8_t *bytes, size_t len)
{
    for (size_t i = 0; i < len; i++)
        if (bytes[i] != GUARD_BYTE)
            return false;
    return true;
}

bool lent_holds(const struct lent *lent, const uint8_t *content)
{
    if (lent->bytes == NULL)
        return lent->len == 0;
    return all_guard_bytes(lent->bytes - front_guard(lent), front_guard(lent)) &&
           all_guard_bytes(lent->bytes + lent->len, back_guard(lent)) &&
           (lent->len == 0 || memcmp(lent->bytes, content, lent->len) == 0);
}
