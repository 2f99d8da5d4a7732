/* Sheets to be lent: see sheets.h. */

#include "sheets.h"

static void put_number(uint8_t *bytes, size_t number)
{
    bytes[0] = (uint8_t)(number >> 8);
    bytes[1] = (uint8_t)number;
}

void add_correction(struct sheet *sheet, size_t row, size_t column, uint8_t was, uint8_t is)
{
    uint8_t *record = &sheet->bytes[sheet->length];
    put_number(&record[0], 0xC33C);
    put_number(&record[2], row);
    put_number(&record[4], column);
    record[6] = was;
    record[7] = is;
    sheet->length += SHEET_RECORD;
}

void make_sheet(struct sheet *sheet, struct chance *chance, size_t p, size_t records)
{
    sheet->length = 0;
    for (size_t k = 0; k < records; k++) {
        size_t row = chance_below(chance, p - 1), column = chance_below(chance, p - 3);
        uint8_t bytes[2];
        chance_bytes(chance, bytes, 2);
        add_correction(sheet, row, column, bytes[0], bytes[1]);
    }
}

void put_place(struct sheet *sheet, size_t record, size_t row, size_t column)
{
    uint8_t *bytes = &sheet->bytes[record * SHEET_RECORD];
    put_number(&bytes[2], row);
    put_number(&bytes[4], column);
}

void put_fault(struct sheet *sheet, size_t p, size_t record, enum sheet_fault fault)
{
    uint8_t *mark = &sheet->bytes[record * SHEET_RECORD], *row = mark + 2, *column = mark + 4;
    switch (fault) {
    case FIRST_MARK_BYTE: mark[0] ^= 0x01; break;
    case SECOND_MARK_BYTE: mark[1] ^= 0x80; break;
    case MARK_SWAPPED: put_number(mark, 0x3CC3); break;
    case MARK_OF_A_REEL: put_number(mark, 0xD55D); break;
    case MARK_OF_ZEROS: put_number(mark, 0); break;
    case ROW_JUST_ABOVE: put_number(row, p - 1); break;
    case ROW_LARGEST: put_number(row, 0xFFFF); break;
    case ROW_HIGH_BYTE: row[0] ^= 0x80; break;
    case COLUMN_FIRST_CHECK: put_number(column, p - 3); break;
    case COLUMN_SECOND_CHECK: put_number(column, p - 2); break;
    case COLUMN_LARGEST: put_number(column, 0xFFFF); break;
    case COLUMN_HIGH_BYTE: column[0] ^= 0x80; break;
    case SHEET_FAULTS: break;
    }
}
