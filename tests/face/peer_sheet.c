/* The peer's correction sheet, from SPEC 6 and, for the bytes of a record, from FORMATS, "The correction sheet". It is judged, made into a
 * text of differences, and that text into the good tile that is added. */

#include <string.h>

#include "peer.h"
#include "peer_rules.h"
#include "peer_tile.h"

/* SPEC 6.1. */
enum { RECORD = 8 };

/* SPEC 1.2. */
static size_t number(const uint8_t *high_byte)
{
    return (size_t)high_byte[0] * 256 + high_byte[1];
}

/* FORMATS; so are the column, and below the mark and the two bytes. */
static size_t row(const uint8_t *record)
{
    return number(&record[2]);
}

static size_t column(const uint8_t *record)
{
    return number(&record[4]);
}

/* SPEC 6.3, of one record: 6 before 4. */
static enum refusal judge_record(size_t p, const uint8_t *record)
{
    if (record[0] != 0xC3 || record[1] != 0x3C)
        return BAD_MARK;
    if (row(record) > p - 2 || column(record) > p - 4)
        return BAD_PLACE;
    return ACCEPTED;
}

/* SPEC 6.3, of the whole sheet: leaves the offset of the first record with a fault, and otherwise 0. */
static enum refusal judge_sheet(size_t p, const uint8_t *sheet, size_t sheet_len, uint64_t *offset)
{
    *offset = 0;
    if (sheet_len % RECORD != 0)
        return CUT_SHORT;
    for (size_t at = 0; at < sheet_len; at += RECORD) {
        enum refusal refusal = judge_record(p, &sheet[at]);
        if (refusal != ACCEPTED) {
            *offset = at;
            return refusal;
        }
    }
    return ACCEPTED;
}

/* SPEC 6.2: in each place, what all records that name it change there, taken together. */
static void text_of_differences(size_t p, const uint8_t *sheet, size_t sheet_len, uint8_t *text)
{
    memset(text, 0, text_length(p));
    for (size_t at = 0; at < sheet_len; at += RECORD) {
        const uint8_t *record = &sheet[at];
        text[row(record) * (p - 3) + column(record)] ^= record[6] ^ record[7];
    }
}

/* SPEC 6.3 and 6.4; SPEC 11.2 for the number. */
uint64_t peer_correct(size_t kind, size_t p, size_t l, uint8_t *tile, size_t tile_len, const uint8_t *sheet, size_t sheet_len,
                      uint64_t *count_or_offset)
{
    static uint8_t differences[LARGEST_TEXT], added[LARGEST_TILE];
    *count_or_offset = 0;
    enum refusal refusal = judge_tile(kind, p, l, tile_len);
    if (refusal == ACCEPTED)
        refusal = judge_sheet(p, sheet, sheet_len, count_or_offset);
    if (refusal != ACCEPTED)
        return word_refused(refusal);
    text_of_differences(p, sheet, sheet_len, differences);
    make_good(p, l, differences, added);
    for (size_t k = 0; k < tile_len; k++)
        tile[k] ^= added[k];
    *count_or_offset = sheet_len / RECORD;
    return word_done();
}
