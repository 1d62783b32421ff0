/*
 * Gives the same long lines to the proved readers and to the plain ones, and
 * checks that both give the same result and write the same lists. Run under
 * callgrind (see run.sh) it shows what each reader costs on each line.
 */
#include "plain.h"
#include "proved.h"

#include <stdbool.h>
#include <stdio.h>
#include <string.h>

enum {
    LINE_BYTES = 65536,
    VALUE_PLACES = 32768,
    COORDINATE_PLACES = 3 * 4096,
    CORNER_PLACES = 3 * 16384,
    REPLACEMENT_PLACES = 3 * 4096,
    TAKEN_PLACES = 16384
};

struct line {
    uint8_t bytes[LINE_BYTES];
    size_t length;
};

struct lists {
    int32_t values[VALUE_PLACES];
    int32_t coordinates[COORDINATE_PLACES];
    int32_t corners[CORNER_PLACES];
    int32_t replacements[REPLACEMENT_PLACES];
    int32_t taken[TAKEN_PLACES];
};

/* ---- The calls that are counted ---------------------------------------- */

/* Each case has two functions of its own, so that callgrind can tell their
 * costs apart. Noting the name after the call keeps the compiler from merging
 * functions that are otherwise the same, and from jumping instead of calling. */
static const char *volatile last_done;

#define ORDER_RUN(run, reader)                                                \
    static __attribute__((noinline)) int64_t run(const struct line *line,     \
                                                 struct lists *lists)         \
    {                                                                         \
        int64_t result = reader(line->bytes, line->length,                    \
                                lists->values, VALUE_PLACES);                 \
        last_done = #run;                                                     \
        return result;                                                        \
    }

#define HIERARCHY_RUN(run, reader)                                            \
    static __attribute__((noinline)) int64_t run(const struct line *line,     \
                                                 struct lists *lists)         \
    {                                                                         \
        int64_t result = reader(line->bytes, line->length,                    \
                                lists->coordinates, COORDINATE_PLACES,        \
                                lists->corners, CORNER_PLACES,                \
                                lists->replacements, REPLACEMENT_PLACES,      \
                                lists->taken, TAKEN_PLACES);                  \
        last_done = #run;                                                     \
        return result;                                                        \
    }

ORDER_RUN(run_proved_order_short, bench_read_order)
ORDER_RUN(run_plain_order_short, plain_read_order)
ORDER_RUN(run_proved_order_long, bench_read_order)
ORDER_RUN(run_plain_order_long, plain_read_order)
ORDER_RUN(run_proved_order_spaced, bench_read_order)
ORDER_RUN(run_plain_order_spaced, plain_read_order)
ORDER_RUN(run_proved_order_refused, bench_read_order)
ORDER_RUN(run_plain_order_refused, plain_read_order)
HIERARCHY_RUN(run_proved_hierarchy, bench_read_hierarchy)
HIERARCHY_RUN(run_plain_hierarchy, plain_read_hierarchy)

/* ---- The lines ---------------------------------------------------------- */

/* Adds text to the line if `spare` bytes stay free after it. */
static bool add(struct line *line, const char *text, size_t spare)
{
    size_t size = strlen(text);
    if (size + spare > LINE_BYTES - line->length)
        return false;
    memcpy(line->bytes + line->length, text, size);
    line->length += size;
    return true;
}

/* Numbers that look random and are the same in every run. */
static uint32_t random_state;

static int random_below(int bound)
{
    random_state = random_state * 1664525u + 1013904223u;
    return (int)((random_state >> 8) % (uint32_t)bound);
}

/* An order line as full as it gets, with values from `low` up to below
 * `low + span`. Returns how many there are. */
static int64_t make_order(struct line *line, int low, int span, const char *comma)
{
    char text[32];
    int64_t count = 0;
    add(line, "[", 0);
    for (;;) {
        snprintf(text, sizeof text, "%s%d", count == 0 ? "" : comma,
                 low + random_below(span));
        if (!add(line, text, 1))
            break;
        count++;
    }
    add(line, "]", 0);
    return count;
}

/* One- and two-digit values. */
static int64_t make_order_short(struct line *line)
{
    return make_order(line, 0, 100, ",");
}

/* Nine-digit values. */
static int64_t make_order_long(struct line *line)
{
    return make_order(line, 100000000, 16000000, ",");
}

/* A space after each comma. */
static int64_t make_order_spaced(struct line *line)
{
    return make_order(line, 0, 1000, ", ");
}

/* Short values, with a last byte that does not close the list. */
static int64_t make_order_refused(struct line *line)
{
    make_order_short(line);
    line->bytes[line->length - 1] = '}';
    return -(1000000 + (int64_t)line->length - 1);
}

/* Triangles, as left by taking vertices out of a mesh one by one: each
 * replacement takes the six cells around a vertex and makes four. As many
 * replacements as fit. Returns the number of cells. */
static int64_t make_hierarchy(struct line *line)
{
    enum { VERTICES = 640, BASE_CELLS = 1240, TAKEN = 6, MADE = 4 };
    char text[256];

    add(line, "[3,[", 0);
    for (int i = 0; i < VERTICES; i++) {
        snprintf(text, sizeof text, "%s[%d,%d,%d]", i == 0 ? "" : ",",
                 random_below(200000) - 100000, random_below(200000) - 100000,
                 random_below(20000) - 10000);
        add(line, text, 0);
    }
    add(line, "],[", 0);
    for (int i = 0; i < BASE_CELLS; i++) {
        snprintf(text, sizeof text, "%s[%d,%d,%d]", i == 0 ? "" : ",",
                 random_below(VERTICES), random_below(VERTICES),
                 random_below(VERTICES));
        add(line, text, 0);
    }
    add(line, "],[", 0);

    int cells = BASE_CELLS;
    for (int i = 0;; i++) {
        int size = snprintf(text, sizeof text, "%s[%d,[", i == 0 ? "" : ",", 40 * i);
        for (int k = 0; k < TAKEN; k++)
            size += snprintf(text + size, sizeof text - (size_t)size, "%s%d",
                             k == 0 ? "" : ",", random_below(cells));
        size += snprintf(text + size, sizeof text - (size_t)size, "],[");
        for (int k = 0; k < MADE; k++)
            size += snprintf(text + size, sizeof text - (size_t)size, "%s[%d,%d,%d]",
                             k == 0 ? "" : ",", random_below(VERTICES),
                             random_below(VERTICES), random_below(VERTICES));
        snprintf(text + size, sizeof text - (size_t)size, "]]");
        if (!add(line, text, 2))
            break;
        cells += MADE;
    }
    add(line, "]]", 0);
    return cells;
}

/* ---- The cases ---------------------------------------------------------- */

static const struct bench_case {
    const char *name;
    int64_t (*make)(struct line *line); /* returns the result to expect */
    int64_t (*run_proved)(const struct line *line, struct lists *lists);
    int64_t (*run_plain)(const struct line *line, struct lists *lists);
} cases[] = {
    {"order_short", make_order_short, run_proved_order_short, run_plain_order_short},
    {"order_long", make_order_long, run_proved_order_long, run_plain_order_long},
    {"order_spaced", make_order_spaced, run_proved_order_spaced, run_plain_order_spaced},
    {"hierarchy", make_hierarchy, run_proved_hierarchy, run_plain_hierarchy},
    {"order_refused", make_order_refused, run_proved_order_refused, run_plain_order_refused},
};

int main(void)
{
    static struct line line;
    static struct lists proved_lists, plain_lists;
    bool good = true;

    for (size_t i = 0; i < sizeof cases / sizeof cases[0]; i++) {
        const struct bench_case *c = &cases[i];
        line.length = 0;
        random_state = 1;
        int64_t expected = c->make(&line);

        /* A value no reader writes, so that places left alone show. */
        memset(&proved_lists, 0x80, sizeof proved_lists);
        memset(&plain_lists, 0x80, sizeof plain_lists);
        int64_t proved = c->run_proved(&line, &proved_lists);
        int64_t plain = c->run_plain(&line, &plain_lists);

        bool same = memcmp(&proved_lists, &plain_lists, sizeof plain_lists) == 0;
        printf("%-14s %zu bytes: proved %lld, plain %lld, expected %lld, lists %s\n",
               c->name, line.length, (long long)proved, (long long)plain,
               (long long)expected, same ? "agree" : "DIFFER");
        good = good && same && proved == expected && plain == expected;
    }
    if (!good)
        fprintf(stderr, "the readers do not agree\n");
    return good ? 0 : 1;
}
