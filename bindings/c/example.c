/* Document 01's P1 and its desk example, document 02 (a)'s point whose label leaves
   the map, document 02 (c)'s shared rows, and document 01's tie without ranks and
   with them, document 02 (e). `bindings/run` builds and runs it, and compares what
   it prints with bindings/expected. */
#include "plates.h"

#include <stdio.h>

/* Map 20 by 10, label 4 by 2, points 17 at (2,3), 18 at (4,4), 19 at (10,7). */
static const uint8_t P1[28] = {
    0x01, 0x14, 0x00, 0x0a, 0x00, 0x04, 0x00, 0x02, 0x00, 0x03,
    0x11, 0x00, 0x02, 0x00, 0x03, 0x00,
    0x12, 0x00, 0x04, 0x00, 0x04, 0x00,
    0x13, 0x00, 0x0a, 0x00, 0x07, 0x00,
};

/* P1's map and label with the one point 17 at (18,2). */
static const uint8_t EDGE[16] = {
    0x01, 0x14, 0x00, 0x0a, 0x00, 0x04, 0x00, 0x02, 0x00, 0x01,
    0x11, 0x00, 0x12, 0x00, 0x02, 0x00,
};

/* The same with 17 at (2,3) and 18 at (8,3), in one row. */
static const uint8_t RIDGE[22] = {
    0x01, 0x14, 0x00, 0x0a, 0x00, 0x04, 0x00, 0x02, 0x00, 0x02,
    0x11, 0x00, 0x02, 0x00, 0x03, 0x00,
    0x12, 0x00, 0x08, 0x00, 0x03, 0x00,
};

/* The same with three points at columns 0, 2 and 4 of one row: no choice is valid. */
static const uint8_t CROWDED[28] = {
    0x01, 0x14, 0x00, 0x0a, 0x00, 0x04, 0x00, 0x02, 0x00, 0x03,
    0x11, 0x00, 0x00, 0x00, 0x03, 0x00,
    0x12, 0x00, 0x02, 0x00, 0x03, 0x00,
    0x13, 0x00, 0x04, 0x00, 0x03, 0x00,
};

/* Map 20 by 12, label 4 by 2, points 1 at (4,3) and 2 at (3,4): one of them can be
   inside, and either can. */
static const uint8_t PAIR[22] = {
    0x01, 0x14, 0x00, 0x0c, 0x00, 0x04, 0x00, 0x02, 0x00, 0x02,
    0x01, 0x00, 0x04, 0x00, 0x03, 0x00,
    0x02, 0x00, 0x03, 0x00, 0x04, 0x00,
};

/* Its rank list: 1 is a relay and has rank 1, 2 is a doctor and has rank 2. */
static const uint8_t RANKS[3] = {0x02, 0x01, 0x02};

static uint16_t workspace[PLATE_WORKSPACE];

static void print_bytes(const char *name, const uint8_t *bytes, size_t count)
{
    printf("%s", name);
    for (size_t i = 0; i < count; i++)
        printf(" %02x", bytes[i]);
    printf("\n");
}

/* Loads a sheet, prints the answer, and hands the new desk back. */
static struct desk load(struct desk desk, const uint8_t *sheet, size_t sheet_len)
{
    struct desk_load_result loaded =
        desk_load(desk, sheet, sheet_len, workspace, PLATE_WORKSPACE);
    printf("load %u\n", (unsigned)loaded.number);
    return loaded.desk;
}

/* The same with a rank list. */
static struct desk load_ranked(struct desk desk, const uint8_t *sheet, size_t sheet_len,
                               const uint8_t *ranks, size_t ranks_len)
{
    struct desk_load_result loaded = desk_load_ranked(
        desk, sheet, sheet_len, ranks, ranks_len, workspace, PLATE_WORKSPACE);
    printf("load %u\n", (unsigned)loaded.number);
    return loaded.desk;
}

/* The word for a clash. */
static const char *kind(uint32_t verdict)
{
    switch (verdict) {
    case DESK_CLASH_LABELS: return "labels";
    case DESK_CLASH_LABEL_AND_LEADER: return "leader";
    case DESK_CLASH_OVERHANG: return "overhang";
    case DESK_CLASH_TWO_LEADERS: return "leaders";
    default: return "?";
    }
}

/* Marks a list, prints the answer, and hands the new desk back. */
static struct desk mark(struct desk desk, const uint8_t *list, size_t list_len)
{
    struct desk_mark_result marked = desk_mark(desk, list, list_len);
    if (marked.number != 0)
        printf("refused %u\n", (unsigned)marked.number);
    else if (marked.verdict == DESK_VALID)
        printf("%u valid %u %u\n", (unsigned)marked.list_number,
               (unsigned)marked.sum, (unsigned)marked.shortfall);
    else
        printf("%u clash %u %u %s\n", (unsigned)marked.list_number,
               (unsigned)marked.first, (unsigned)marked.second,
               kind(marked.verdict));
    return marked.desk;
}

int main(void)
{
    printf("check %u\n", (unsigned)plate_check_sheet(P1, sizeof P1));
    printf("check %u\n", (unsigned)plate_check_sheet(P1, sizeof P1 - 1));

    uint8_t output[PLATE_OUTPUT];
    struct plate_make_result made =
        plate_make(P1, sizeof P1, output, sizeof output, workspace, PLATE_WORKSPACE);
    if (made.number != 0) {
        printf("refused %u\n", (unsigned)made.number);
        return 1;
    }
    print_bytes("plate", output, made.written);

    struct plate_read_result read = plate_read(output, made.written);
    if (read.number != 0) {
        printf("refused %u\n", (unsigned)read.number);
        return 1;
    }
    print_bytes("inside", output + read.inside_start, read.inside_count);

    uint8_t text[PLATE_LISTING];
    fwrite(text, 1, plate_listing(output, made.written, text, sizeof text), stdout);

    static const uint8_t best[] = {2, 1, 2}, first[] = {1, 0}, none[] = {0};
    static const uint8_t both[] = {2, 0, 1}, second[] = {1, 1};
    struct desk desk = desk_new();
    desk = mark(desk, best, sizeof best);
    desk = load(desk, P1, sizeof P1);
    desk = mark(desk, best, sizeof best);
    desk = mark(desk, first, sizeof first);
    desk = mark(desk, none, sizeof none);
    desk = load(desk, EDGE, sizeof EDGE);
    desk = mark(desk, first, sizeof first);
    desk = mark(desk, none, sizeof none);
    desk = load(desk, RIDGE, sizeof RIDGE);
    desk = mark(desk, none, sizeof none);
    desk = load(desk, CROWDED, sizeof CROWDED); /* refused: RIDGE stays */
    desk = mark(desk, both, sizeof both);

    /* The relay's label is inside without ranks, the doctor's with them. */
    made = plate_make(PAIR, sizeof PAIR, output, sizeof output, workspace, PLATE_WORKSPACE);
    print_bytes("plate", output, made.written);
    made = plate_make_ranked(PAIR, sizeof PAIR, RANKS, sizeof RANKS, output, sizeof output,
                             workspace, PLATE_WORKSPACE);
    print_bytes("plate", output, made.written);
    desk = load(desk, PAIR, sizeof PAIR);
    desk = mark(desk, first, sizeof first);
    desk = load_ranked(desk, PAIR, sizeof PAIR, RANKS, sizeof RANKS);
    desk = mark(desk, first, sizeof first);
    desk = mark(desk, second, sizeof second);
    desk = load_ranked(desk, P1, sizeof P1, RANKS, sizeof RANKS); /* refused: PAIR stays */
    mark(desk, second, sizeof second);
    return 0;
}
