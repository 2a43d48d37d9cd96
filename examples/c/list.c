/*
 * Reads a record from standard input and prints its listing, or why it is
 * refused, as the program knee does. In the root of the repository:
 *
 *     (cd crates/export && rt lib)
 *     mkdir -p target
 *     cc -Wall -Iinclude examples/c/list.c crates/export/out/libexport.a -o target/list
 *     printf 'top 1 2\nbottom 2 1\n' | python3 tools/channel.py | target/list
 */

#include <stdio.h>

#include "gaxwethi.h"

int main(void)
{
    /* One byte more than a record may have, so that a longer one is refused. */
    static uint8_t record[1031], text[GAXWETHI_TEXT];

    size_t len = fread(record, 1, sizeof record, stdin);
    gaxwethi_list_result listed = gaxwethi_list(record, len, text);
    if (listed.number != 0)
        printf("refused %u\n", listed.number);
    else
        fwrite(text, 1, listed.length, stdout);
    if (fclose(stdout) != 0)
        return 3;
    return listed.number != 0;
}
