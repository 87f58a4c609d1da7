/* Call-sign plates: the proved calls, for C11 and C++11 on x86-64 Linux.

   Linking. The library is one archive, libplate_export.a, which needs nothing
   but the C library. `rt lib --cpu x86-64` in the repository's
   crates/plate_export writes it to crates/plate_export/out:
       cc -I bindings/c program.c crates/plate_export/out/libplate_export.a
   or, once `bindings/install PREFIX` has put header, archive and plates.pc there,
   with PKG_CONFIG_PATH=PREFIX/lib/pkgconfig:
       cc program.c $(pkg-config --cflags --libs plates)

   Slices. A slice is a pointer and then a count. For the whole call the pointer
   is valid for its count (written ones for writing), it fits its type's
   alignment, nobody else changes what is lent, and a slice that is written
   overlaps no other. A slice of count 0 may have any pointer, NULL too: nothing
   is read or written there. Nothing else is asked: any bytes at all may be lent.

   Ranks. A rank list may be lent beside the sheet: a count byte n, the sheet's
   point count, then the rank of each point, in the sheet's order, from 1 to 9.
   plate_make_ranked and desk_load_ranked are lent a list. plate_make and desk_load
   are lent no list, and every rank is 1 then. A list that is lent and empty (count
   0, NULL too) isn't the same as no list: it has no count byte, and gets 62. The
   list of a sheet without points is the one byte 0.

   Refusals. Their numbers are those of the questions in documents 01 and 02; the
   first question answered no ends a call. A refused call writes nothing, but for
   61, which leaves the whole workspace zero.

   Structs. They go by value as the x86-64 C ABI has it. They have no padding: a
   field `spare` stands where it would be. It is 0 in every result, in a desk if
   calls from desk_new on handed it back, so results can be compared byte by byte.

   The library keeps nothing between calls, and calls may run at the same time. */
#ifndef PLATES_H
#define PLATES_H

#include <stdbool.h>
#include <stddef.h>
#include <stdint.h>

#ifdef __cplusplus
#define PLATES_SAME(a, b) static_assert((a) == (b), "the layout of the library's structs")
extern "C" {
#else
#define PLATES_SAME(a, b) _Static_assert((a) == (b), "the layout of the library's structs")
#endif

/* The library's counts have 64 bits. */
PLATES_SAME(sizeof(size_t), 8);

/* The most points of a sheet. */
#define PLATE_POINTS 32

/* The most bytes of a sheet: 10 + 6n with n = 32 points. */
#define PLATE_SHEET 202

/* How many 16-bit numbers of workspace a making or a load asks for. */
#define PLATE_WORKSPACE 32768

/* The most bytes of output a making asks for: 12 + 8n with n = 32 points. */
#define PLATE_OUTPUT 268

/* How many bytes are enough for the listing of a plate: 24 + 16n with n = 32
   points. */
#define PLATE_LISTING 536

/* The number of the first no of a sheet's questions (11 to 20), 0 if the sheet
   is accepted. */
uint32_t plate_check_sheet(const uint8_t *sheet, size_t sheet_len);

/* Making. The number is that of the first no, 0 if a plate is made; written is
   the plate's length, 0 on a refusal. Bytes of the output past the plate are
   untouched, and the whole workspace is zero afterwards.

   The numbers, in the order of their questions, are 11 to 22; with a rank list 62
   and 63; then 61. 62 says that the list's count byte is missing or isn't n, or
   that its length isn't 1 + n; 63 that a rank isn't 1 to 9; 61 that no choice of
   the sheet is valid.

   A sheet that has a plate has one best plate with these ranks, and that is made.
   It has the best sum: no valid choice has a greater sum of the ranks of its
   inside points. Of several choices with that sum, go through the points in the
   sheet's order: at the first point where two of them differ, the one with it
   inside is preferred. Without a list the sum is the inside count, and as many
   points are inside as can be. */
struct plate_make_result {
    uint32_t number;
    uint32_t spare; /* 0 */
    uint64_t written;
};
PLATES_SAME(sizeof(struct plate_make_result), 4 + 4 + 8);
/* No list is lent: every rank is 1, and the number is never 62 or 63. */
struct plate_make_result plate_make(const uint8_t *sheet, size_t sheet_len,
                                    uint8_t *output, size_t output_len,
                                    uint16_t *workspace, size_t workspace_len);
/* A rank list is lent. */
struct plate_make_result plate_make_ranked(const uint8_t *sheet, size_t sheet_len,
                                           const uint8_t *ranks, size_t ranks_len,
                                           uint8_t *output, size_t output_len,
                                           uint16_t *workspace, size_t workspace_len);

/* Reading. The number is that of the first no (11 to 20, 41 to 44), 0 if the
   plate is accepted. The inside list is inside_count bytes of the plate from
   inside_start on; both are 0 on a refusal. */
struct plate_read_result {
    uint32_t number;
    uint32_t spare; /* 0 */
    uint64_t inside_start;
    uint64_t inside_count;
};
PLATES_SAME(sizeof(struct plate_read_result), 4 + 4 + 8 + 8);
struct plate_read_result plate_read(const uint8_t *plate, size_t plate_len);

/* Listing. The text that the program print_plate prints of this plate. Line one
   has the points, the inside count and the margin columns used; then each point
   in sheet order has a line with its call number and `in`, or `out` and its
   margin column. The text is ASCII, each line ends with a newline, and no zero
   byte ends it.

   The answer is the text's length; bytes past it are untouched. Where the buffer
   is too short for the text the answer is 0 and nothing is written. No text is
   empty. For a plate of n points 24 + 16n bytes are enough.

   No question is asked. Of bytes that are no plate the text says what stands
   where a plate has its fields, 0 past the end, and a point in neither section
   is out in column 0: of up to 255 points, and 4,104 bytes are enough for that. */
size_t plate_listing(const uint8_t *plate, size_t plate_len,
                     uint8_t *text, size_t text_len);

/* A desk, by value. Get one from desk_new, and hand each call the desk that the
   call before it handed back: after a refusal that is the same one. A desk that
   two calls are given gives both the same number.

   The fields may be read. With a desk that no calls from desk_new on handed back
   a call still ends, but nothing is promised of its best, its sums and its
   numbers. */

/* What a load puts into the desk. */
struct desk_held {
    uint8_t sheet[PLATE_SHEET];  /* the loaded sheet, then zeros; zeros if none is
                                    loaded */
    uint8_t ranks[PLATE_POINTS]; /* the rank of each point of the loaded sheet, by
                                    position, then zeros: 1 for each point if its
                                    load was lent no list; zeros if no sheet is
                                    loaded */
    bool loaded;                 /* whether a sheet is loaded; its byte is 0 or 1,
                                    and a desk with any other must not be handed
                                    to a call */
    uint8_t spare;               /* 0; no call asks for it, and it goes along until
                                    a load puts 0 there */
    uint16_t best;               /* the best sum of the loaded sheet with these
                                    ranks, up to 288; its best count if its load
                                    was lent no list; 0 if no sheet is loaded */
};
PLATES_SAME(sizeof(struct desk_held), PLATE_SHEET + PLATE_POINTS + 1 + 1 + 2);
struct desk {
    struct desk_held held;
    uint16_t last; /* the number of the list marked last, 0 before the first */
};
PLATES_SAME(sizeof(struct desk), sizeof(struct desk_held) + 2);
struct desk desk_new(void);

/* A load. The number is that of the first no, 0 if the sheet is loaded; then the
   whole workspace is zero. The desk keeps the sheet, the ranks of its points and
   its best sum with them until the next load that isn't refused; the last number
   stays.

   The numbers, in the order of their questions, are 11 to 20 and 22; with a rank
   list 62 and 63; then 61. 61 to 63 say what they say of a making. */
struct desk_load_result {
    struct desk desk;
    uint32_t number;
};
PLATES_SAME(sizeof(struct desk_load_result), sizeof(struct desk) + 4);
/* No list is lent: every rank is 1, and the number is never 62 or 63. */
struct desk_load_result desk_load(struct desk desk,
                                  const uint8_t *sheet, size_t sheet_len,
                                  uint16_t *workspace, size_t workspace_len);
/* A rank list is lent. */
struct desk_load_result desk_load_ranked(struct desk desk,
                                         const uint8_t *sheet, size_t sheet_len,
                                         const uint8_t *ranks, size_t ranks_len,
                                         uint16_t *workspace, size_t workspace_len);

/* The verdicts of a mark. */
#define DESK_VALID 1
#define DESK_CLASH_LABELS 2           /* two labels met */
#define DESK_CLASH_LABEL_AND_LEADER 3 /* a label met a leader */
#define DESK_CLASH_OVERHANG 4         /* a label leaves the map */
#define DESK_CLASH_TWO_LEADERS 5      /* two leaders in one row */

/* A mark. The number is that of the first no (51, 31 to 33, 52), 0 if the list
   is marked. Then list_number is the list's number; a valid list has its sum and
   shortfall set, a clash its first and second position, the first below the
   second, or both the same for a label that leaves the map. Every other field is
   0; on a refusal all but the desk and the number are 0.

   The sum is that of the ranks of the list's positions, and the shortfall is the
   desk's best sum less that. Both are at most 288, from 32 points of rank 9. If
   the load was lent no list, the sum is the count of the list's positions. */
struct desk_mark_result {
    struct desk desk;
    uint32_t number;
    uint32_t list_number;
    uint32_t verdict;
    uint32_t sum;
    uint32_t shortfall;
    uint32_t first;
    uint32_t second;
};
PLATES_SAME(sizeof(struct desk_mark_result), sizeof(struct desk) + 7 * 4);
struct desk_mark_result desk_mark(struct desk desk,
                                  const uint8_t *list, size_t list_len);

#undef PLATES_SAME

#ifdef __cplusplus
}
#endif

#endif
