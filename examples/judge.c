/* Judges the trail examples by the table "no road anywhere", and damaged
 * versions of that table. */
#include <stdio.h>
#include <string.h>

#include "rulebooks.h"

static const uint8_t no_road[34] = {
    0x01, 0x02, 0x04, 0x00,                         /* edition, states, kinds, 0 */
    0x00, 0x00, 0x01, 0x02,                         /* ranks: path, road, sign, join */
    0x01, 0x00,                                     /* marks: yes, no */
    0x1A, 0x00, 0x01, 0x00, 0x1B, 0x00, 0x01, 0x00, /* directory */
    0x1C, 0x00, 0x02, 0x00, 0x1E, 0x00, 0x04, 0x00,
    0x00,                                           /* path */
    0x01,                                           /* road */
    0x00, 0x01,                                     /* sign */
    0x00, 0x01, 0x01, 0x01                          /* join */
};

static void show(const char *what, const uint8_t *table, size_t table_len,
                 const uint8_t *record, size_t record_len)
{
    printf("%-34s %d\n", what, (int)judge(table, table_len, record, record_len));
}

static void show_record(const char *what, const uint8_t *record, size_t len)
{
    show(what, no_road, sizeof no_road, record, len);
}

/* The table with one byte changed, and so many bytes of it. */
static void show_damaged(const char *what, size_t at, uint8_t byte, size_t len)
{
    uint8_t table[sizeof no_road + 1] = {0};
    const uint8_t path[1] = {0x00};

    memcpy(table, no_road, sizeof no_road);
    table[at] = byte;
    show(what, table, len, path, sizeof path);
}

int main(void)
{
    const uint8_t path[] = {0x00};
    const uint8_t road[] = {0x01};
    const uint8_t sign_over_path[] = {0x00, 0x02};
    const uint8_t path_and_road[] = {0x00, 0x01, 0x03};
    const uint8_t nested[] = {0x00, 0x02, 0x00, 0x00, 0x03, 0x03, 0x02};
    const uint8_t lone_sign[] = {0x02};
    const uint8_t two_parts[] = {0x00, 0x01};
    const uint8_t no_kind[] = {0x04};
    static uint8_t longest[4096], too_long[4097], long_table[65536];

    show_record("path", path, sizeof path);
    show_record("road", road, sizeof road);
    show_record("sign over path", sign_over_path, sizeof sign_over_path);
    show_record("join of path and road", path_and_road, sizeof path_and_road);
    show_record("nested, without a road", nested, sizeof nested);

    show_record("no bytes", path, 0);
    show_record("a sign over nothing", lone_sign, sizeof lone_sign);
    show_record("two parts", two_parts, sizeof two_parts);
    show_record("no kind", no_kind, sizeof no_kind);
    memset(longest, 0x02, sizeof longest);
    longest[0] = 0x00;
    show_record("path under 4,095 signs", longest, sizeof longest);
    show_record("4,097 bytes", too_long, sizeof too_long);

    show_damaged("table with last byte 02", 33, 0x02, 34);
    show_damaged("table with byte 14 as 1A", 14, 0x1A, 34);
    show_damaged("table cut to 33 bytes", 0, 0x01, 33);
    show_damaged("table with one byte more", 34, 0x00, 35);
    show_damaged("table of edition 2", 0, 0x02, 34);
    show_damaged("table with a rank of 3", 7, 0x03, 34);
    show("table of 65,536 bytes", long_table, sizeof long_table, path, sizeof path);
    show("table of no bytes", no_road, 0, path, sizeof path);
    return 0;
}
