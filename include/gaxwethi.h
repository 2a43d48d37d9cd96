/*
 * Gaxwethi: a proved router for knock-knee channels. The calls of the static
 * library libexport.a, which `rt lib`, run in crates/export, puts into the
 * folder crates/export/out.
 *
 * A channel of n columns is two rows of numbers, top and bottom, one number
 * for each column: 0 for no pin, else a net number 1 to 256. A net has two or
 * more pins. The density d is the largest count, over the gaps between
 * columns, of nets with pins on both sides.
 *
 * A drawing of width w on t tracks is w columns of 2t + 1 entries each:
 * t + 1 vertical edges from row 0 (the bottom pin) upward, then the t
 * horizontal edges that leave to the right, from track 1 upward. An entry is
 * a net number, or 0 for no edge. The drawing is a solution if w is at least
 * n, every entry is 0 or a net of the channel, the first and last vertical
 * entries of each column equal its pins (0 past column n), the last column has
 * no horizontal edge, the edges of each net are one piece, and no net has a
 * loose end: a grid point on rows 1 to t where it has one edge.
 *
 * Numbers. Each call answers with a number, but for gaxwethi_column and a
 * board's density and count: 0 for acceptance, else why it is refused. Refusals
 * are checked from the top of this table down; a call skips those of the places
 * that it lacks. A refused call writes nothing: all that it is lent keeps its
 * contents, but that a refused start leaves a sweep or a board of the channel
 * without columns. Its other figures are 0, but for the checker's place, column
 * and row.
 *
 *    Record    1  under 4 or over 1,030 bytes, or a wrong length field
 *              2  kind not 1
 *              3  body under 2 bytes, or not 2 + 4n bytes
 *    Rows      4  lengths differ, also of rows that are written
 *              5  over 256 columns, also of such rows or of a board; for a
 *                 listing over 64
 *              6  a number over 256
 *              7  a net with one pin; for a driven sweep, any without exactly
 *                 two
 *    Slice     8  layout shorter than gaxwethi_need says; in a step of a driven
 *                 sweep, than (n + t/2 rounded down) * (2t + 1)
 *              9  net table under 256 records
 *             18  output slice shorter than 6 + 4n bytes
 *    Drawing  10  w under n or over 511
 *             11  t over 511
 *             12  slice not w * (2t + 1) entries
 *             13  entry neither 0 nor a net
 *                 the lowest pin edge that is wrong chooses one of
 *             14  the edge of a pin is 0
 *             19  the edge of a pin carries another net
 *             20  a wire at a terminal without a pin, or past column n
 *             15  horizontal edge in the last column
 *             16  a net in more than one piece
 *             17  a loose end
 *    New net   6  number 0 or over 256
 *             21  number in use
 *             22  a terminal not free or not allowed
 *             23  density over the tracks; not for a board
 *    Drop      6  number 0 or over 256
 *             24  no such net on the board
 *
 * Slices. A slice is lent as a pointer and a length in elements. The pointer
 * is not null, also where the length is 0, is aligned, and is good for that
 * many elements. The text of gaxwethi_list is lent as a pointer alone and is
 * good for GAXWETHI_TEXT bytes; the members of a gaxwethi_sweep and of a
 * gaxwethi_board are lent so too, each good for its size. What is written
 * overlaps no other argument. These are the only conditions: all contents and
 * all numbers are taken.
 *
 * No call keeps state, as the caller holds that of a driven sweep and the board,
 * and every call ends; calls from several threads are independent.
 */

#ifndef GAXWETHI_H
#define GAXWETHI_H

#include <stdbool.h>
#include <stddef.h>
#include <stdint.h>

#ifdef __cplusplus
extern "C" {
#endif

typedef struct {
    uint16_t number;
    size_t density;
} gaxwethi_density_result;

/*
 * The density of a channel. Refuses with 4 to 7. It is 0 where there are
 * fewer than two columns.
 */
gaxwethi_density_result gaxwethi_density(const uint16_t *top, size_t n,
                                         const uint16_t *bottom, size_t m);

typedef struct {
    uint16_t number;
    size_t length;
} gaxwethi_need_result;

/*
 * The length that a layout slice must have for gaxwethi_route: that of the
 * drawing, w * (2t + 1), with t the tracks of the channel and w the width that
 * the sweep will reach. Refuses with 4 to 7. The call runs the sweep without
 * drawing. The length is at most (n + t/2 rounded down) * (2t + 1), and so at
 * most 511 * 1023.
 */
gaxwethi_need_result gaxwethi_need(const uint16_t *top, size_t n,
                                   const uint16_t *bottom, size_t m);

typedef struct {
    uint16_t number;
    size_t density;
    size_t tracks;
    size_t width;
} gaxwethi_route_result;

/*
 * Routes a channel into a layout slice. Refuses with 4 to 8.
 *
 * An accepted call's drawing is the first width * (2 * tracks + 1) entries of
 * the slice; the entries after it keep their contents. The drawing is a
 * solution. The tracks are d where each net has two pins, and then no
 * solution has fewer; 3d/2 rounded down where the largest net has three pins
 * and no net of three has its first two in one column; else 2d - 1. The width
 * is n plus the columns added after column n, at most t/2 rounded down.
 *
 * Two channels of two-pin nets with the same density, whose first k columns
 * agree, get drawings with the same first k columns, k * (2d + 1) entries. The
 * columns added after column n are no part of this, and with larger nets it
 * does not hold.
 *
 * A slice of (n + t/2 rounded down) * (2t + 1) entries or more is drawn into at
 * once. With a shorter one the sweep runs twice, the first time without
 * drawing, to see that the drawing fits.
 */
gaxwethi_route_result gaxwethi_route(const uint16_t *top, size_t n,
                                     const uint16_t *bottom, size_t m,
                                     uint16_t *layout, size_t len);

typedef struct {
    uint16_t number;
    size_t place;
    size_t column;
    size_t row;
} gaxwethi_check_result;

/*
 * Checks any drawing of a channel by the grid's rules alone. Refuses with 4
 * to 7, 10 to 17, 19 and 20; the number is 0 exactly if the rows are accepted
 * (none of 4 to 7 applies), w and t are at most 511, the slice has the drawing's
 * length, and the drawing is a solution.
 *
 * A pin edge is a column's first or last vertical entry. The lowest position of
 * one that is not its pin chooses 14, 19 or 20. With t = 0 an entry is compared
 * with the bottom pin first: if it differs, that pin chooses, else the top pin.
 *
 * The place is, for 13 to 15, 19 and 20, the lowest position of such an entry,
 * counted from 0, for 14, 19 and 20 that of the lowest wrong pin edge; for 16
 * and 17 the lowest number of such a net; else 0. For 17 column and row, counted
 * from 1 (row y is track y), are those of that net's first loose end, by column
 * and then row; else they are 0.
 */
gaxwethi_check_result gaxwethi_check(const uint16_t *top, size_t n,
                                     const uint16_t *bottom, size_t m,
                                     size_t w, size_t t,
                                     const uint16_t *layout, size_t len);

/* Numbers in the table of a net report: four for each of 256 nets. */
#define GAXWETHI_FIGURES (4 * 256)

/*
 * Reports the nets: for each number 1 to 256 its first column, last column,
 * pin count and length, zeros for an unused number. Here, without a drawing,
 * every length is 0. The table is lent as numbers, four for each record; len
 * counts numbers. Refuses with 4 to 7, and with 9 if len is under
 * GAXWETHI_FIGURES. Numbers after those keep their contents.
 */
uint16_t gaxwethi_report(const uint16_t *top, size_t n,
                         const uint16_t *bottom, size_t m,
                         uint32_t *figures, size_t len);

/*
 * Reports the nets with their lengths in a drawing, which is lent as to
 * gaxwethi_check. The length of a net is the number of its edges, vertical and
 * horizontal, the pins' own edges included; all lengths add up to the number
 * of entries that are not 0. The table is that of gaxwethi_report; count counts
 * its numbers.
 *
 * Refuses first for the rows, with 4 to 7; then for the table, with 9; then for
 * the drawing, with 10 to 17, 19 or 20 as gaxwethi_check does, place, column and
 * row included. So the report is given only for a solution.
 */
gaxwethi_check_result gaxwethi_report_drawing(const uint16_t *top, size_t n,
                                              const uint16_t *bottom, size_t m,
                                              size_t w, size_t t,
                                              const uint16_t *layout, size_t len,
                                              uint32_t *figures, size_t count);

typedef struct {
    size_t offset;
    size_t length;
} gaxwethi_part;

/*
 * Where column c, counted from 1, lies in a layout slice of len entries: the
 * offset of its first entry, counted from 0, and the length of its part,
 * 2t + 1. The part is empty, with offset 0 and length 0, if w or t is over
 * 511, len is not w * (2t + 1), or c is not 1 to w.
 */
gaxwethi_part gaxwethi_column(size_t len, size_t w, size_t t, size_t c);

/* The size of the text that gaxwethi_list is lent; the longest listing fits. */
#define GAXWETHI_TEXT 131072

typedef struct {
    uint16_t number;
    size_t length;
} gaxwethi_list_result;

/*
 * Writes the listing of a record, the text that the program knee prints for
 * it, into the first bytes of a text of GAXWETHI_TEXT bytes. Refuses with 1 to
 * 7, and with 5 for over 64 columns; 4 does not occur, as a record has one n.
 *
 * The length is that of the listing in bytes; the bytes after it keep their
 * contents, and there is no closing zero byte. On refusal it is 0, and the
 * whole text keeps its contents.
 *
 * A record is, in 16-bit little-endian numbers: the length in bytes of all
 * that follows this number, the kind 1, n, the top row, the bottom row.
 */
gaxwethi_list_result gaxwethi_list(const uint8_t *record, size_t len,
                                   uint8_t *text);

typedef struct {
    uint16_t number;
    size_t length;
} gaxwethi_canonical_result;

/*
 * Writes a channel as a record with its nets renumbered 1, 2, 3 ... in the order
 * of their first pin, column by column, top before bottom. Refuses with 4 to 7,
 * and with 18 if len is under 6 + 4n.
 *
 * The record is the first 6 + 4n bytes, which is the length answered; the bytes
 * after it keep their contents. Two channels get equal bytes exactly if a
 * one-to-one renaming of nets turns one into the other. The record, read back,
 * is a channel of the same density and tracks, though not always of the same
 * width, and writing it again gives the same bytes.
 */
gaxwethi_canonical_result gaxwethi_canonical(const uint16_t *top, size_t n,
                                             const uint16_t *bottom, size_t m,
                                             uint8_t *bytes, size_t len);

/*
 * A driven sweep, for channels of two-pin nets: columns are drawn some at a
 * time, and nets may still be placed right of them. This is its state, which the
 * caller holds. gaxwethi_start makes it, whatever stood there before.
 *
 * To be read are the channel's columns n, the tracks t, the columns drawn so far,
 * and the rows with the late nets so far, the first n numbers of top and bottom.
 * What is said of the calls below holds for a state, and at each step a layout
 * slice, as the call before left it. With any other state a call still ends.
 */
typedef struct {
    size_t columns;
    size_t tracks;
    size_t drawn;
    uint16_t top[256];
    uint16_t bottom[256];
    uint16_t first[257];
    uint16_t last[257];
    uint16_t strands[512];
    uint64_t free[8];
    uint16_t low[257];
    uint16_t high[257];
    uint16_t many[257];
    uint64_t extended[8];
} gaxwethi_sweep;

typedef struct {
    uint16_t number;
    size_t tracks;
    size_t length;
} gaxwethi_start_result;

typedef struct {
    uint16_t number;
    size_t drawn;
    bool finished;
} gaxwethi_step_result;

/*
 * The library's own calls for a driven sweep. They take the state member by
 * member, rows as upper and lower; the functions after them pass these.
 */
gaxwethi_start_result gaxwethi_sweep_start(const uint16_t *top, size_t n,
                                           const uint16_t *bottom, size_t m,
                                           size_t *columns, size_t *tracks,
                                           size_t *drawn,
                                           uint16_t *upper, uint16_t *lower,
                                           uint16_t *first, uint16_t *last,
                                           uint16_t *strands, uint64_t *free,
                                           uint16_t *low, uint16_t *high,
                                           uint16_t *many, uint64_t *extended);

gaxwethi_step_result gaxwethi_sweep_step(size_t columns, size_t tracks,
                                         size_t *drawn,
                                         const uint16_t *upper,
                                         const uint16_t *lower,
                                         const uint16_t *first,
                                         const uint16_t *last,
                                         uint16_t *strands, uint64_t *free,
                                         uint16_t *low, uint16_t *high,
                                         uint16_t *many, uint64_t *extended,
                                         uint16_t *layout, size_t len,
                                         size_t k);

uint16_t gaxwethi_sweep_place(size_t columns, size_t tracks, size_t drawn,
                              uint16_t *upper, uint16_t *lower,
                              uint16_t *first, uint16_t *last,
                              uint16_t net,
                              size_t column1, uint16_t side1,
                              size_t column2, uint16_t side2);

/*
 * Begins a driven sweep of a channel, on d tracks. Refuses with 4 to 7, where 7
 * is any net without exactly two pins; the sweep is then that of the channel
 * without columns.
 *
 * The length, (n + t/2 rounded down) * (2t + 1), is that of the layout slice
 * which every step needs: late nets can change the width.
 */
static inline gaxwethi_start_result
gaxwethi_start(gaxwethi_sweep *sweep, const uint16_t *top, size_t n,
               const uint16_t *bottom, size_t m)
{
    return gaxwethi_sweep_start(top, n, bottom, m, &sweep->columns,
                                &sweep->tracks, &sweep->drawn, sweep->top,
                                sweep->bottom, sweep->first, sweep->last,
                                sweep->strands, sweep->free, sweep->low,
                                sweep->high, sweep->many, sweep->extended);
}

/*
 * Draws the next k columns, or those that are left, into their places: the
 * channel's, then the added ones. Refuses with 8 if len is under the length that
 * gaxwethi_start answered, also where nothing is left to draw.
 *
 * Answers the columns drawn so far, and whether these are all. The other columns
 * of the slice keep their contents. However the steps are grouped, the finished
 * drawing is the one that gaxwethi_route draws of the channel with all late nets.
 */
static inline gaxwethi_step_result
gaxwethi_step(gaxwethi_sweep *sweep, uint16_t *layout, size_t len, size_t k)
{
    return gaxwethi_sweep_step(sweep->columns, sweep->tracks, &sweep->drawn,
                               sweep->top, sweep->bottom, sweep->first,
                               sweep->last, sweep->strands, sweep->free,
                               sweep->low, sweep->high, sweep->many,
                               sweep->extended, layout, len, k);
}

/*
 * Places a late net at two terminals, each a column, counted from 1, and a side,
 * 0 for top and 1 for bottom. Refuses with 6, 21, 22 and 23.
 *
 * 22 is a terminal that has a pin, is not right of the last drawn column, lies
 * outside the channel or has another side, and one terminal given twice; 23 is a
 * net with which the density would be over the tracks, which stay those of the
 * start.
 */
static inline uint16_t
gaxwethi_place(gaxwethi_sweep *sweep, uint16_t net, size_t column1,
               uint16_t side1, size_t column2, uint16_t side2)
{
    return gaxwethi_sweep_place(sweep->columns, sweep->tracks, sweep->drawn,
                                sweep->top, sweep->bottom, sweep->first,
                                sweep->last, net, column1, side1, column2,
                                side2);
}

/*
 * A channel on the drawing board: two-pin nets are added and dropped, and the
 * density is asked for between. The caller holds the board; gaxwethi_new_board
 * makes it, whatever stood there before.
 *
 * To be read are the channel's columns n, the rows, the first n numbers of top
 * and bottom, and the counts: counts[g] is that at gap g, the open nets between
 * the columns g and g + 1, which each change mends. All numbers behind these,
 * and counts[0], are 0. What is said of the calls below holds for a board as the
 * call before left it. With any other a call still ends, and a refused change
 * leaves it as it was.
 */
typedef struct {
    size_t columns;
    uint16_t top[256];
    uint16_t bottom[256];
    uint16_t counts[256];
} gaxwethi_board;

/*
 * The library's own calls for a board. They take it member by member; the
 * functions after them pass these.
 */
uint16_t gaxwethi_board_start(size_t n, size_t *columns,
                              uint16_t *top, uint16_t *bottom,
                              uint16_t *counts);

uint16_t gaxwethi_board_add(size_t columns,
                            uint16_t *top, uint16_t *bottom,
                            uint16_t *counts,
                            uint16_t net,
                            size_t column1, uint16_t side1,
                            size_t column2, uint16_t side2);

uint16_t gaxwethi_board_drop(size_t columns,
                             uint16_t *top, uint16_t *bottom,
                             uint16_t *counts,
                             uint16_t net);

uint16_t gaxwethi_board_density(size_t columns, const uint16_t *counts);

uint16_t gaxwethi_board_count(size_t columns, const uint16_t *counts,
                              size_t gap);

/*
 * Begins a board of n columns without nets. Refuses with 5 if n is over 256; the
 * board then has no columns.
 */
static inline uint16_t
gaxwethi_new_board(gaxwethi_board *board, size_t n)
{
    return gaxwethi_board_start(n, &board->columns, board->top, board->bottom,
                                board->counts);
}

/*
 * Adds a net at two terminals, each a column, counted from 1, and a side, 0 for
 * top and 1 for bottom. Refuses with 6, 21 and 22.
 *
 * 22 is a terminal that has a pin, lies outside the channel or has another side,
 * and one terminal given twice. A dropped number may be used again.
 */
static inline uint16_t
gaxwethi_add_net(gaxwethi_board *board, uint16_t net, size_t column1,
                 uint16_t side1, size_t column2, uint16_t side2)
{
    return gaxwethi_board_add(board->columns, board->top, board->bottom,
                              board->counts, net, column1, side1, column2,
                              side2);
}

/* Drops a net. Refuses with 6, and with 24 if it is not there. */
static inline uint16_t
gaxwethi_drop_net(gaxwethi_board *board, uint16_t net)
{
    return gaxwethi_board_drop(board->columns, board->top, board->bottom,
                               board->counts, net);
}

/* The density of the channel: the largest count. It is never refused. */
static inline uint16_t
gaxwethi_density_of_board(const gaxwethi_board *board)
{
    return gaxwethi_board_density(board->columns, board->counts);
}

/* The count at a gap; 0 outside 1 to n - 1. It is never refused. */
static inline uint16_t
gaxwethi_count_at_gap(const gaxwethi_board *board, size_t gap)
{
    return gaxwethi_board_count(board->columns, board->counts, gap);
}

typedef struct {
    uint16_t number;
    size_t added;
} gaxwethi_widest_result;

/*
 * Writes the channel with the widest drawing into two rows of n entries each: a
 * channel of two-pin nets, whose drawing by gaxwethi_route is n + added columns
 * wide. No channel of two-pin nets with n columns has a wider one. Refuses with
 * 4 and 5; what the rows held is not read.
 *
 * The added columns are n/2 rounded down. With h for that number the rows are
 *
 *     top     (0)  2  4  ..  2h      1  3  ..  2h - 1
 *     bottom  (0)  1  3  ..  2h - 1  2  4  ..  2h
 *
 * where the first column, which is empty, is there for odd n alone. The density
 * and the tracks are 2h.
 */
gaxwethi_widest_result gaxwethi_widest(uint16_t *top, size_t n,
                                       uint16_t *bottom, size_t m);

#ifdef __cplusplus
}
#endif

#endif
