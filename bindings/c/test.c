/* What plates.h says of slices of count 0, of the structs' bytes, of the plate
   that is made, of rank lists, of a listing's buffer and of a desk's fields.
   `bindings/run` builds and runs it; it prints what doesn't hold. */
#include "plates.h"

#include <stdio.h>
#include <string.h>

static int failures;

#define CHECK(holds) check(holds, #holds, __LINE__)

static void check(bool holds, const char *what, int line)
{
    if (holds)
        return;
    printf("test.c:%d: %s doesn't hold\n", line, what);
    failures++;
}

/* Document 01's P1: the best count is 2. */
static const uint8_t P1[28] = {
    0x01, 0x14, 0x00, 0x0a, 0x00, 0x04, 0x00, 0x02, 0x00, 0x03,
    0x11, 0x00, 0x02, 0x00, 0x03, 0x00,
    0x12, 0x00, 0x04, 0x00, 0x04, 0x00,
    0x13, 0x00, 0x0a, 0x00, 0x07, 0x00,
};

/* Its plate, and what is printed of it. */
static const uint8_t P1_PLATE[34] = {
    0x01, 0x14, 0x00, 0x0a, 0x00, 0x04, 0x00, 0x02, 0x00, 0x03,
    0x11, 0x00, 0x02, 0x00, 0x03, 0x00,
    0x12, 0x00, 0x04, 0x00, 0x04, 0x00,
    0x13, 0x00, 0x0a, 0x00, 0x07, 0x00,
    0x02, 0x01, 0x02, 0x01, 0x00, 0x00,
};
static const char P1_LISTING[] = "plate 3 2 1\n17 out 0\n18 in\n19 in\n";

/* Document 01's tie: map 20 by 12, label 4 by 2, points 1 at (4,3) and 2 at (3,4).
   One of them can be inside. */
static const uint8_t PAIR[22] = {
    0x01, 0x14, 0x00, 0x0c, 0x00, 0x04, 0x00, 0x02, 0x00, 0x02,
    0x01, 0x00, 0x04, 0x00, 0x03, 0x00,
    0x02, 0x00, 0x03, 0x00, 0x04, 0x00,
};

/* Document 02 (c): three points at columns 0, 2 and 4 of one row. No choice is
   valid. */
static const uint8_t CROWDED[28] = {
    0x01, 0x14, 0x00, 0x0a, 0x00, 0x04, 0x00, 0x02, 0x00, 0x03,
    0x01, 0x00, 0x00, 0x00, 0x03, 0x00,
    0x02, 0x00, 0x02, 0x00, 0x03, 0x00,
    0x03, 0x00, 0x04, 0x00, 0x03, 0x00,
};

/* No point, document 01's P10. */
static const uint8_t P10[10] = {0x01, 0x14, 0x00, 0x0c, 0x00, 0x04, 0x00, 0x02, 0x00, 0x00};

static uint16_t workspace[PLATE_WORKSPACE];

/* Leaves no zero where the next call puts its result, so that a byte that it
   doesn't set is found. */
static __attribute__((noinline)) void fill_stack(void)
{
    volatile uint8_t room[16384];
    for (size_t i = 0; i < sizeof room; i++)
        room[i] = 0xee;
}

static bool same(const void *a, const void *b, size_t count)
{
    return memcmp(a, b, count) == 0;
}

static bool filled(const void *bytes, uint8_t byte, size_t count)
{
    const uint8_t *start = bytes;
    for (size_t i = 0; i < count; i++)
        if (start[i] != byte)
            return false;
    return true;
}

static struct desk loaded_desk(void)
{
    struct desk_load_result loaded =
        desk_load(desk_new(), P1, sizeof P1, workspace, PLATE_WORKSPACE);
    CHECK(loaded.number == 0);
    return loaded.desk;
}

static void null_with_count_0(void)
{
    uint8_t output[36];
    struct desk fresh = desk_new(), desk = loaded_desk();
    CHECK(plate_check_sheet(NULL, 0) == 11);
    CHECK(plate_make(NULL, 0, NULL, 0, NULL, 0).number == 11);
    CHECK(plate_make(P1, sizeof P1, NULL, 0, workspace, PLATE_WORKSPACE).number == 21);
    CHECK(plate_make(P1, sizeof P1, output, sizeof output, NULL, 0).number == 22);
    CHECK(plate_make_ranked(NULL, 0, NULL, 0, NULL, 0, NULL, 0).number == 11);
    CHECK(plate_make_ranked(P1, sizeof P1, NULL, 0, NULL, 0, NULL, 0).number == 21);
    CHECK(plate_make_ranked(P1, sizeof P1, NULL, 0, output, sizeof output, NULL, 0).number == 22);
    CHECK(plate_make_ranked(P1, sizeof P1, NULL, 0, output, sizeof output, workspace,
                            PLATE_WORKSPACE).number == 62);
    CHECK(plate_read(NULL, 0).number == 11);
    CHECK(plate_listing(NULL, 0, NULL, 0) == 0);
    CHECK(plate_listing(P1_PLATE, sizeof P1_PLATE, NULL, 0) == 0);
    CHECK(plate_listing(NULL, 0, output, sizeof output) == 12);
    CHECK(same(output, "plate 0 0 0\n", 12));
    CHECK(desk_load(fresh, NULL, 0, NULL, 0).number == 11);
    CHECK(desk_load(fresh, P1, sizeof P1, NULL, 0).number == 22);
    CHECK(desk_load_ranked(fresh, NULL, 0, NULL, 0, NULL, 0).number == 11);
    CHECK(desk_load_ranked(fresh, P1, sizeof P1, NULL, 0, NULL, 0).number == 22);
    CHECK(desk_load_ranked(fresh, P1, sizeof P1, NULL, 0, workspace, PLATE_WORKSPACE).number == 62);
    CHECK(desk_mark(fresh, NULL, 0).number == 51);
    CHECK(desk_mark(desk, NULL, 0).number == 31);
}

static void bytes_of_a_making(void)
{
    uint8_t output[PLATE_OUTPUT];
    fill_stack();
    struct plate_make_result made =
        plate_make(P1, sizeof P1, output, sizeof output, workspace, PLATE_WORKSPACE);
    const struct plate_make_result expected = {.written = 34};
    CHECK(same(&made, &expected, sizeof made));
    fill_stack();
    made = plate_make(P1, sizeof P1 - 1, output, sizeof output, workspace, PLATE_WORKSPACE);
    const struct plate_make_result refused = {.number = 16};
    CHECK(same(&made, &refused, sizeof made));
}

static void bytes_of_a_reading(void)
{
    fill_stack();
    struct plate_read_result read = plate_read(P1_PLATE, sizeof P1_PLATE);
    const struct plate_read_result expected = {.inside_start = 29, .inside_count = 2};
    CHECK(same(&read, &expected, sizeof read));
    fill_stack();
    read = plate_read(P1_PLATE, sizeof P1_PLATE - 1);
    const struct plate_read_result refused = {.number = 41};
    CHECK(same(&read, &refused, sizeof read));
}

/* Lists P1's plate into a buffer of this length: the text or nothing, and no
   other byte. */
static void list_into(size_t room)
{
    uint8_t text[PLATE_LISTING], expected[PLATE_LISTING];
    memset(text, 0xee, sizeof text);
    memset(expected, 0xee, sizeof expected);
    const size_t length = strlen(P1_LISTING), answer = room < length ? 0 : length;
    memcpy(expected, P1_LISTING, answer);
    CHECK(plate_listing(P1_PLATE, sizeof P1_PLATE, text, room) == answer);
    CHECK(same(text, expected, sizeof text));
}

static void buffer_of_a_listing(void)
{
    for (size_t room = 0; room <= PLATE_LISTING; room++)
        list_into(room);
}

/* One point, and no byte after its count: its call number, the inside count and
   the outside pairs are past the end. */
static void listing_of_no_plate(void)
{
    static const uint8_t bytes[10] = {[9] = 1};
    static const char listing[] = "plate 1 0 0\n0 out 0\n";
    uint8_t text[PLATE_LISTING];
    CHECK(plate_listing(bytes, sizeof bytes, text, sizeof text) == strlen(listing));
    CHECK(same(text, listing, strlen(listing)));
}

static void bytes_of_a_desk(void)
{
    struct desk expected = {0};
    fill_stack();
    struct desk desk = desk_new();
    CHECK(same(&desk, &expected, sizeof desk));

    memcpy(expected.held.sheet, P1, sizeof P1);
    memset(expected.held.ranks, 1, 3);
    expected.held.loaded = true;
    expected.held.best = 2;
    fill_stack();
    desk = loaded_desk();
    CHECK(same(&desk, &expected, sizeof desk));

    static const uint8_t none[] = {0}, no_list[] = {1};
    fill_stack();
    struct desk_mark_result marked = desk_mark(desk, none, sizeof none);
    expected.last = 1;
    const struct desk_mark_result valid = {
        .desk = expected, .list_number = 1, .verdict = DESK_VALID, .shortfall = 2};
    CHECK(same(&marked, &valid, sizeof marked));

    fill_stack();
    marked = desk_mark(marked.desk, no_list, sizeof no_list);
    const struct desk_mark_result refused = {.desk = expected, .number = 31};
    CHECK(same(&marked, &refused, sizeof marked));

    fill_stack();
    struct desk_load_result loaded =
        desk_load(marked.desk, P1, 9, workspace, PLATE_WORKSPACE);
    const struct desk_load_result too_short = {.desk = expected, .number = 11};
    CHECK(same(&loaded, &too_short, sizeof loaded));
}

/* Output and desk stay, and the whole workspace is zero. */
static void no_valid_choice(void)
{
    uint8_t output[PLATE_OUTPUT];
    memset(output, 0xee, sizeof output);
    memset(workspace, 0xee, sizeof workspace);
    CHECK(plate_check_sheet(CROWDED, sizeof CROWDED) == 0);
    struct plate_make_result made = plate_make(
        CROWDED, sizeof CROWDED, output, sizeof output, workspace, PLATE_WORKSPACE);
    const struct plate_make_result refused = {.number = 61};
    CHECK(same(&made, &refused, sizeof made));
    CHECK(filled(output, 0xee, sizeof output));
    CHECK(filled(workspace, 0, sizeof workspace));

    const struct desk desk = loaded_desk();
    memset(workspace, 0xee, sizeof workspace);
    struct desk_load_result loaded =
        desk_load(desk, CROWDED, sizeof CROWDED, workspace, PLATE_WORKSPACE);
    CHECK(loaded.number == 61 && same(&loaded.desk, &desk, sizeof desk));
    CHECK(filled(workspace, 0, sizeof workspace));
}

/* Document 01's tie, and the two points exchanged: one of them can be inside, and
   it is the sheet's first, document 02 (d). */
static void a_tie(void)
{
    static const uint8_t sheets[2][22] = {
        {1, 20, 0, 12, 0, 4, 0, 2, 0, 2, 1, 0, 4, 0, 3, 0, 2, 0, 3, 0, 4, 0},
        {1, 20, 0, 12, 0, 4, 0, 2, 0, 2, 1, 0, 3, 0, 4, 0, 2, 0, 4, 0, 3, 0},
    };
    static const uint8_t added[5] = {1, 0, 1, 1, 0};
    uint8_t output[PLATE_OUTPUT];
    for (size_t i = 0; i < 2; i++) {
        struct plate_make_result made = plate_make(
            sheets[i], sizeof sheets[i], output, sizeof output, workspace, PLATE_WORKSPACE);
        CHECK(made.number == 0 && made.written == sizeof sheets[i] + sizeof added);
        CHECK(same(output, sheets[i], sizeof sheets[i]));
        CHECK(same(output + sizeof sheets[i], added, sizeof added));
    }
}

/* RANKS */

/* The desk after a load with a rank list, which must be accepted. */
static struct desk ranked_desk(struct desk desk, const uint8_t *sheet, size_t sheet_len,
                               const uint8_t *ranks, size_t ranks_len)
{
    memset(workspace, 0xee, sizeof workspace);
    fill_stack();
    struct desk_load_result loaded = desk_load_ranked(
        desk, sheet, sheet_len, ranks, ranks_len, workspace, PLATE_WORKSPACE);
    CHECK(loaded.number == 0);
    CHECK(filled(workspace, 0, sizeof workspace));
    return loaded.desk;
}

/* Makes a plate with a rank list: the sheet and these bytes added, and no other
   byte of the output. */
static void makes_ranked(const uint8_t *sheet, size_t sheet_len,
                         const uint8_t *ranks, size_t ranks_len,
                         const uint8_t *added, size_t added_len)
{
    uint8_t output[PLATE_OUTPUT];
    const size_t length = sheet_len + added_len;
    memset(output, 0xee, sizeof output);
    memset(workspace, 0xee, sizeof workspace);
    fill_stack();
    struct plate_make_result made =
        plate_make_ranked(sheet, sheet_len, ranks, ranks_len, output, sizeof output, workspace,
                          PLATE_WORKSPACE);
    const struct plate_make_result expected = {.written = length};
    CHECK(same(&made, &expected, sizeof made));
    CHECK(same(output, sheet, sheet_len));
    CHECK(same(output + sheet_len, added, added_len));
    CHECK(filled(output + length, 0xee, sizeof output - length));
    CHECK(filled(workspace, 0, sizeof workspace));
}

/* Marks a list, which must be valid with this sum and shortfall, on a desk that
   keeps all but its last number. */
static struct desk marks(struct desk desk, const uint8_t *list, size_t list_len,
                         uint32_t sum, uint32_t shortfall)
{
    fill_stack();
    struct desk_mark_result marked = desk_mark(desk, list, list_len);
    desk.last++;
    const struct desk_mark_result expected = {
        .desk = desk,
        .list_number = desk.last,
        .verdict = DESK_VALID,
        .sum = sum,
        .shortfall = shortfall};
    CHECK(same(&marked, &expected, sizeof marked));
    return marked.desk;
}

/* The sheet with this rank list is refused with this number, made and loaded. 61
   leaves the workspace zero; all else is untouched. */
static void refuses(const uint8_t *sheet, size_t sheet_len,
                    const uint8_t *ranks, size_t ranks_len, uint32_t number)
{
    uint8_t output[PLATE_OUTPUT];
    const uint8_t left = number == 61 ? 0 : 0xee;
    memset(output, 0xee, sizeof output);
    memset(workspace, 0xee, sizeof workspace);
    fill_stack();
    struct plate_make_result made =
        plate_make_ranked(sheet, sheet_len, ranks, ranks_len, output, sizeof output, workspace,
                          PLATE_WORKSPACE);
    const struct plate_make_result refused = {.number = number};
    CHECK(same(&made, &refused, sizeof made));
    CHECK(filled(output, 0xee, sizeof output));
    CHECK(filled(workspace, left, sizeof workspace));

    static const uint8_t p1_ranks[] = {3, 4, 5, 6}, best[] = {2, 1, 2};
    const struct desk desk =
        marks(ranked_desk(desk_new(), P1, sizeof P1, p1_ranks, sizeof p1_ranks),
              best, sizeof best, 11, 0);
    memset(workspace, 0xee, sizeof workspace);
    fill_stack();
    struct desk_load_result loaded = desk_load_ranked(
        desk, sheet, sheet_len, ranks, ranks_len, workspace, PLATE_WORKSPACE);
    const struct desk_load_result kept = {.desk = desk, .number = number};
    CHECK(same(&loaded, &kept, sizeof loaded));
    CHECK(filled(workspace, left, sizeof workspace));
    marks(loaded.desk, best, sizeof best, 11, 0);
}

/* With rank 2 the second of the pair is inside, with equal ranks the first. */
static void ranks_of_the_pair(void)
{
    static const uint8_t second_more[] = {2, 1, 2}, equal[] = {2, 9, 9};
    static const uint8_t second_inside[] = {1, 1, 1, 0, 0}, first_inside[] = {1, 0, 1, 1, 0};
    makes_ranked(PAIR, sizeof PAIR, second_more, sizeof second_more,
                 second_inside, sizeof second_inside);
    makes_ranked(PAIR, sizeof PAIR, equal, sizeof equal, first_inside, sizeof first_inside);

    struct desk expected = {0};
    memcpy(expected.held.sheet, PAIR, sizeof PAIR);
    memcpy(expected.held.ranks, second_more + 1, 2);
    expected.held.loaded = true;
    expected.held.best = 2;
    struct desk desk = ranked_desk(desk_new(), PAIR, sizeof PAIR, second_more, sizeof second_more);
    CHECK(same(&desk, &expected, sizeof desk));
    static const uint8_t first[] = {1, 0}, second[] = {1, 1}, none[] = {0};
    desk = marks(desk, first, sizeof first, 1, 1);
    desk = marks(desk, second, sizeof second, 2, 0);
    desk = marks(desk, none, sizeof none, 0, 2);

    /* A load without a list puts rank 1 for each, and keeps the last number. */
    struct desk_load_result loaded =
        desk_load(desk, PAIR, sizeof PAIR, workspace, PLATE_WORKSPACE);
    memset(expected.held.ranks, 1, 2);
    expected.held.best = 1;
    expected.last = 3;
    CHECK(loaded.number == 0 && same(&loaded.desk, &expected, sizeof expected));
    desk = marks(loaded.desk, first, sizeof first, 1, 0);

    desk = ranked_desk(desk, PAIR, sizeof PAIR, equal, sizeof equal);
    memset(expected.held.ranks, 9, 2);
    expected.held.best = 9;
    expected.last = 4;
    CHECK(same(&desk, &expected, sizeof desk));
    marks(desk, second, sizeof second, 9, 0);
}

/* Map 4096 by 4096, label 4 by 2, and 32 points, the one at position k numbered
   k + 1 at column and row 50 + 100k: all can be inside, and all outside. */
static void far_apart(uint8_t sheet[PLATE_SHEET])
{
    static const uint8_t frame[10] = {0x01, 0x00, 0x10, 0x00, 0x10, 0x04, 0x00, 0x02, 0x00, 0x20};
    memcpy(sheet, frame, sizeof frame);
    for (int k = 0; k < PLATE_POINTS; k++) {
        const int at = 50 + 100 * k;
        const uint8_t low = (uint8_t)(at % 256), high = (uint8_t)(at / 256);
        const uint8_t point[6] = {(uint8_t)(k + 1), 0, low, high, low, high};
        memcpy(sheet + 10 + 6 * k, point, sizeof point);
    }
}

/* The greatest sum: 32 points of rank 9. */
static void a_sum_of_288(void)
{
    uint8_t sheet[PLATE_SHEET], ranks[1 + PLATE_POINTS], list[1 + PLATE_POINTS];
    far_apart(sheet);
    memset(ranks, 9, sizeof ranks);
    ranks[0] = 32;
    for (int k = 0; k < PLATE_POINTS; k++)
        list[1 + k] = (uint8_t)k;

    uint8_t added[34];
    list[0] = 32;
    memcpy(added, list, sizeof list);
    added[33] = 0; /* no point outside */
    makes_ranked(sheet, sizeof sheet, ranks, sizeof ranks, added, sizeof added);

    struct desk expected = {0};
    memcpy(expected.held.sheet, sheet, sizeof sheet);
    memset(expected.held.ranks, 9, 32);
    expected.held.loaded = true;
    expected.held.best = 288;
    struct desk desk = ranked_desk(desk_new(), sheet, sizeof sheet, ranks, sizeof ranks);
    CHECK(same(&desk, &expected, sizeof desk));
    desk = marks(desk, list, 33, 288, 0);
    list[0] = 29;
    desk = marks(desk, list, 30, 261, 27);
    list[0] = 0;
    marks(desk, list, 1, 0, 288);

    ranks[32] = 10;
    refuses(sheet, sizeof sheet, ranks, sizeof ranks, 63);
    refuses(sheet, sizeof sheet, ranks, sizeof ranks - 1, 62);
}

/* A rank list of the pair: what it has, and the number that it gets. */
struct refused_list {
    uint8_t bytes[4];
    size_t length;
    uint32_t number;
};

static void refused_rank_lists(void)
{
    static const struct refused_list lists[] = {
        {{0}, 0, 62},           /* empty */
        {{1, 1, 2}, 3, 62},     /* a count byte that isn't n, */
        {{3, 1, 2}, 3, 62},
        {{0, 1, 2}, 3, 62},
        {{1, 1}, 2, 62},        /* with its own count of ranks too */
        {{3, 1, 2, 1}, 4, 62},
        {{0}, 1, 62},
        {{2}, 1, 62},           /* too short */
        {{2, 1}, 2, 62},
        {{2, 1, 2, 1}, 4, 62},  /* too long */
        {{2, 0, 1}, 3, 63},     /* a first rank that isn't 1 to 9, */
        {{2, 10, 1}, 3, 63},
        {{2, 255, 1}, 3, 63},
        {{2, 1, 0}, 3, 63},     /* and a last one */
        {{2, 1, 10}, 3, 63},
        {{2, 0, 10}, 3, 63},
        {{3, 0, 1}, 3, 62},     /* both faults */
        {{2, 0}, 2, 62},
        {{2, 0, 10, 1}, 4, 62},
    };
    for (size_t i = 0; i < sizeof lists / sizeof lists[0]; i++)
        refuses(PAIR, sizeof PAIR, lists[i].bytes, lists[i].length, lists[i].number);
    refuses(PAIR, sizeof PAIR, NULL, 0, 62);
}

/* 62 and 63 come after a sheet's questions, 21 and 22, and before 61. */
static void order_of_62_and_63(void)
{
    static const uint8_t good[] = {3, 1, 9, 1}, zero[] = {3, 1, 0, 1};
    refuses(CROWDED, sizeof CROWDED, good, sizeof good, 61);
    refuses(CROWDED, sizeof CROWDED, zero, sizeof zero, 63);
    refuses(CROWDED, sizeof CROWDED, zero, sizeof zero - 1, 62);
    refuses(CROWDED, sizeof CROWDED - 1, zero, sizeof zero, 16);

    uint8_t output[36];
    const struct desk desk = desk_new();
    for (size_t length = 0; length <= sizeof zero; length++) {
        CHECK(plate_make_ranked(P1, sizeof P1, zero, length, output, sizeof output - 1,
                                workspace, PLATE_WORKSPACE).number == 21);
        CHECK(plate_make_ranked(P1, sizeof P1, zero, length, output, sizeof output,
                                workspace, PLATE_WORKSPACE - 1).number == 22);
        CHECK(desk_load_ranked(desk, P1, sizeof P1, zero, length,
                               workspace, PLATE_WORKSPACE - 1).number == 22);
    }
}

/* The rank list of a sheet without points is its count byte alone. */
static void ranks_of_no_points(void)
{
    static const uint8_t ranks[] = {0}, one_rank[] = {1, 1}, added[] = {0, 0};
    makes_ranked(P10, sizeof P10, ranks, sizeof ranks, added, sizeof added);
    struct desk expected = {0};
    memcpy(expected.held.sheet, P10, sizeof P10);
    expected.held.loaded = true;
    struct desk desk = ranked_desk(desk_new(), P10, sizeof P10, ranks, sizeof ranks);
    CHECK(same(&desk, &expected, sizeof desk));
    marks(desk, ranks, sizeof ranks, 0, 0); /* as a list: no position */
    refuses(P10, sizeof P10, NULL, 0, 62);
    refuses(P10, sizeof P10, one_rank, 1, 62);
    refuses(P10, sizeof P10, one_rank, sizeof one_rank, 62);
}

/* A spare byte that isn't 0 goes along, and changes no answer; a load puts 0
   there. */
static void a_spare_byte_goes_along(void)
{
    static const uint8_t best[] = {2, 1, 2};
    struct desk desk = loaded_desk(), spare = desk;
    spare.held.spare = 0xff;
    struct desk_mark_result marked = desk_mark(desk, best, sizeof best);
    struct desk_mark_result again = desk_mark(spare, best, sizeof best);
    CHECK(again.desk.held.spare == 0xff);
    again.desk.held.spare = 0;
    CHECK(same(&again, &marked, sizeof again));
    struct desk_load_result loaded = desk_load(spare, NULL, 0, NULL, 0);
    CHECK(loaded.number == 11 && same(&loaded.desk, &spare, sizeof spare));
    loaded = desk_load(spare, P1, sizeof P1, workspace, PLATE_WORKSPACE);
    CHECK(loaded.number == 0 && same(&loaded.desk, &desk, sizeof desk));
    static const uint8_t ranks[] = {3, 1, 1, 1};
    loaded = desk_load_ranked(spare, P1, sizeof P1, NULL, 0, workspace, PLATE_WORKSPACE);
    CHECK(loaded.number == 62 && same(&loaded.desk, &spare, sizeof spare));
    loaded = desk_load_ranked(spare, P1, sizeof P1, ranks, sizeof ranks, workspace,
                              PLATE_WORKSPACE);
    CHECK(loaded.number == 0 && same(&loaded.desk, &desk, sizeof desk));
}

int main(void)
{
    null_with_count_0();
    bytes_of_a_making();
    bytes_of_a_reading();
    buffer_of_a_listing();
    listing_of_no_plate();
    bytes_of_a_desk();
    no_valid_choice();
    a_tie();
    ranks_of_the_pair();
    a_sum_of_288();
    refused_rank_lists();
    order_of_62_and_63();
    ranks_of_no_points();
    a_spare_byte_goes_along();
    return failures != 0;
}
