#include "plain.h"

#include <stdbool.h>

enum {
    MOST_BYTES = 65536,
    MOST_VERTICES = 4096,
    MOST_CELLS = 16384,
    MOST_REPLACEMENTS = 4096,
    MOST_TAKEN = 16384,
    FAR = 1000000000 /* the smallest magnitude out of range */
};

enum { NOT_OF_THE_FORM = 1, TOO_FAR = 2, BAD_COUNT = 3, TOO_LONG = 18 };

enum { VERTICES = 0, CELLS = 1, REPLACEMENTS = 2, TAKEN = 3, ORDER_VALUES = 4 };

/* Where we are in a line. A reading function that returns false leaves `at`
 * on the byte that makes no sense. */
struct reader {
    const uint8_t *at;
    const uint8_t *end;
    const uint8_t *far; /* first byte of the first far number, or NULL */
};

static int64_t refusal(int number, size_t place)
{
    return -((int64_t)number * 1000000 + (int64_t)place);
}

static inline bool is_space(uint8_t byte)
{
    /* Most bytes are above the space, so ask that first. */
    return byte <= ' ' && (byte == ' ' || byte == '\t' || byte == '\r');
}

static inline void skip_space(struct reader *r)
{
    const uint8_t *at = r->at;
    while (at < r->end && is_space(*at))
        at++;
    r->at = at;
}

/* White space, then this byte. */
static inline bool read_byte(struct reader *r, uint8_t byte)
{
    skip_space(r);
    if (r->at == r->end || *r->at != byte)
        return false;
    r->at++;
    return true;
}

/* White space, then a number. A far one is noted, not refused. */
static inline bool read_number(struct reader *r, int32_t *value)
{
    skip_space(r);
    const uint8_t *first = r->at;
    const uint8_t *at = first;
    const uint8_t *end = r->end;

    bool negative = at < end && *at == '-';
    if (negative)
        at++;

    /* A byte that is no digit gives more than 9 here. */
    uint32_t digit = at < end ? (uint32_t)*at - '0' : 10;
    if (digit > 9) {
        r->at = at;
        return false;
    }
    at++;

    uint64_t magnitude = digit;
    if (magnitude != 0) { /* no digit may follow a leading zero */
        while (at < end && (digit = (uint32_t)*at - '0') <= 9) {
            magnitude = magnitude * 10 + digit;
            if (magnitude > FAR)
                magnitude = FAR;
            at++;
        }
    }
    if (magnitude == FAR && r->far == NULL)
        r->far = first;

    r->at = at;
    *value = negative ? -(int32_t)magnitude : (int32_t)magnitude;
    return true;
}

/* What comes next in a list. */
enum next { ITEM, END, NONSENSE };

/* The `[` of a list, and its `]` if it is empty. */
static enum next open_list(struct reader *r)
{
    if (!read_byte(r, '['))
        return NONSENSE;
    return read_byte(r, ']') ? END : ITEM;
}

/* The `,` or `]` after an item. */
static enum next after_item(struct reader *r)
{
    skip_space(r);
    if (r->at == r->end)
        return NONSENSE;
    if (*r->at == ',') {
        r->at++;
        return ITEM;
    }
    if (*r->at == ']') {
        r->at++;
        return END;
    }
    return NONSENSE;
}

/* Nothing but white space up to the end of the line. */
static bool read_end(struct reader *r)
{
    skip_space(r);
    return r->at == r->end;
}

/* A list of any number of numbers, written to `out` unless that is NULL. */
static bool read_numbers(struct reader *r, int32_t *out, size_t *count)
{
    size_t n = 0;
    enum next next = open_list(r);
    while (next == ITEM) {
        int32_t value;
        if (!read_number(r, &value))
            return false;
        if (out != NULL)
            out[n] = value;
        n++;
        next = after_item(r);
    }
    *count = n;
    return next == END;
}

/* A list of exactly `size` numbers, written to `out` unless that is NULL. */
static bool read_row(struct reader *r, size_t size, int32_t *out)
{
    for (size_t i = 0; i < size; i++) {
        int32_t value;
        if (!read_byte(r, i == 0 ? '[' : ',') || !read_number(r, &value))
            return false;
        if (out != NULL)
            out[i] = value;
    }
    return read_byte(r, ']');
}

/* A list of rows of `size` numbers each, written one after the other. */
static bool read_rows(struct reader *r, size_t size, int32_t *out, size_t *count)
{
    size_t n = 0;
    enum next next = open_list(r);
    while (next == ITEM) {
        if (!read_row(r, size, out))
            return false;
        if (out != NULL)
            out += size;
        n++;
        next = after_item(r);
    }
    *count = n;
    return next == END;
}

/* The lists of a hierarchy; all NULL while the line is only judged. */
struct lists {
    int32_t *coordinates;
    int32_t *corners;
    int32_t *replacements;
    int32_t *taken;
};

struct counts {
    size_t kind; /* corners per cell */
    size_t vertices;
    size_t base_cells;
    size_t cells; /* base and made */
    size_t replacements;
    size_t taken;
};

/* `[error,[taken numbers],[made cells]]`, added to the lists and counts. */
static bool read_replacement(struct reader *r, const struct lists *lists,
                             struct counts *counts)
{
    int32_t error;
    size_t taken, made;
    bool keep = lists->replacements != NULL;
    int32_t *taken_out = keep ? lists->taken + counts->taken : NULL;
    int32_t *made_out = keep ? lists->corners + counts->kind * counts->cells : NULL;

    if (!read_byte(r, '[') || !read_number(r, &error) ||
        !read_byte(r, ',') || !read_numbers(r, taken_out, &taken) ||
        !read_byte(r, ',') || !read_rows(r, counts->kind, made_out, &made) ||
        !read_byte(r, ']'))
        return false;

    if (keep) {
        int32_t *record = lists->replacements + 3 * counts->replacements;
        record[0] = error;
        record[1] = (int32_t)taken;
        record[2] = (int32_t)made;
    }
    counts->replacements++;
    counts->taken += taken;
    counts->cells += made;
    return true;
}

static bool read_replacements(struct reader *r, const struct lists *lists,
                              struct counts *counts)
{
    enum next next = open_list(r);
    while (next == ITEM) {
        if (!read_replacement(r, lists, counts))
            return false;
        next = after_item(r);
    }
    return next == END;
}

/* The bare digit 3 or 2. */
static bool read_kind(struct reader *r, size_t *kind)
{
    skip_space(r);
    if (r->at == r->end || (*r->at != '3' && *r->at != '2'))
        return false;
    *kind = (size_t)(*r->at++ - '0');
    return true;
}

static bool read_hierarchy(struct reader *r, const struct lists *lists,
                           struct counts *counts)
{
    *counts = (struct counts){0};
    if (!read_byte(r, '[') || !read_kind(r, &counts->kind) ||
        !read_byte(r, ',') ||
        !read_rows(r, 3, lists->coordinates, &counts->vertices) ||
        !read_byte(r, ',') ||
        !read_rows(r, counts->kind, lists->corners, &counts->base_cells))
        return false;
    counts->cells = counts->base_cells;
    return read_byte(r, ',') && read_replacements(r, lists, counts) &&
           read_byte(r, ']') && read_end(r);
}

int64_t plain_read_order(const uint8_t *line, size_t length,
                         int32_t *values, size_t places)
{
    if (length > MOST_BYTES)
        return refusal(TOO_LONG, MOST_BYTES);

    struct reader r = {line, line + length, NULL};
    size_t count;
    if (!read_numbers(&r, NULL, &count) || !read_end(&r))
        return refusal(NOT_OF_THE_FORM, (size_t)(r.at - line));
    if (r.far != NULL)
        return refusal(TOO_FAR, (size_t)(r.far - line));
    if (count == 0 || count > places)
        return refusal(BAD_COUNT, ORDER_VALUES);

    r.at = line;
    read_numbers(&r, values, &count);
    return (int64_t)count;
}

int64_t plain_read_hierarchy(const uint8_t *line, size_t length,
                             int32_t *coordinates, size_t coordinate_places,
                             int32_t *corners, size_t corner_places,
                             int32_t *replacements, size_t replacement_places,
                             int32_t *taken, size_t taken_places)
{
    if (length > MOST_BYTES)
        return refusal(TOO_LONG, MOST_BYTES);

    struct reader r = {line, line + length, NULL};
    struct lists lists = {NULL, NULL, NULL, NULL};
    struct counts counts;
    if (!read_hierarchy(&r, &lists, &counts))
        return refusal(NOT_OF_THE_FORM, (size_t)(r.at - line));
    if (r.far != NULL)
        return refusal(TOO_FAR, (size_t)(r.far - line));
    if (counts.vertices == 0 || counts.vertices > MOST_VERTICES ||
        3 * counts.vertices > coordinate_places)
        return refusal(BAD_COUNT, VERTICES);
    if (counts.base_cells == 0 || counts.cells > MOST_CELLS ||
        counts.kind * counts.cells > corner_places)
        return refusal(BAD_COUNT, CELLS);
    if (counts.replacements > MOST_REPLACEMENTS ||
        3 * counts.replacements > replacement_places)
        return refusal(BAD_COUNT, REPLACEMENTS);
    if (counts.taken > MOST_TAKEN || counts.taken > taken_places)
        return refusal(BAD_COUNT, TAKEN);

    r.at = line;
    lists = (struct lists){coordinates, corners, replacements, taken};
    read_hierarchy(&r, &lists, &counts);
    return (int64_t)counts.cells;
}
