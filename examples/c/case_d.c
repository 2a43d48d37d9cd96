/*
 * Routes the channel of case D, top 1 2 and bottom 2 1, checks the drawing and
 * prints it column by column. In the root of the repository:
 *
 *     (cd crates/export && rt lib)
 *     mkdir -p target
 *     cc -Wall -Iinclude examples/c/case_d.c crates/export/out/libexport.a -o target/case_d
 *     target/case_d
 */

#include <stdio.h>
#include <stdlib.h>

#include "gaxwethi.h"

static void print_column(const uint16_t *entries, size_t tracks, size_t column)
{
    printf("%zu:", column);
    for (size_t i = 0; i <= tracks; i++)
        printf(" %u", entries[i]);
    printf(" |");
    for (size_t i = tracks + 1; i <= 2 * tracks; i++)
        printf(" %u", entries[i]);
    printf("\n");
}

int main(void)
{
    const uint16_t top[] = {1, 2}, bottom[] = {2, 1};
    const size_t n = 2;

    gaxwethi_need_result need = gaxwethi_need(top, n, bottom, n);
    if (need.number != 0) {
        printf("refused %u\n", need.number);
        return 1;
    }
    uint16_t *layout = calloc(need.length + 1, sizeof *layout);
    if (layout == NULL)
        return 1;
    gaxwethi_route_result drawn = gaxwethi_route(top, n, bottom, n, layout, need.length);
    if (drawn.number != 0) {
        printf("refused %u\n", drawn.number);
        free(layout);
        return 1;
    }
    printf("density %zu tracks %zu width %zu\n", drawn.density, drawn.tracks, drawn.width);

    size_t length = drawn.width * (2 * drawn.tracks + 1);
    for (size_t c = 1; c <= drawn.width; c++) {
        gaxwethi_part part = gaxwethi_column(length, drawn.width, drawn.tracks, c);
        print_column(layout + part.offset, drawn.tracks, c);
    }
    gaxwethi_check_result checked =
        gaxwethi_check(top, n, bottom, n, drawn.width, drawn.tracks, layout, length);
    printf("check: number %u place %zu column %zu row %zu\n", checked.number, checked.place,
           checked.column, checked.row);
    free(layout);
    return checked.number != 0;
}
