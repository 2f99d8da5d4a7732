/* Sheets to be lent, made record by record. */

#ifndef SHEETS_H
#define SHEETS_H

#include <stddef.h>
#include <stdint.h>

#include "chance.h"

enum { SHEET_RECORD = 8, MOST_RECORDS = 10000 };

struct sheet {
    size_t length;
    uint8_t bytes[SHEET_RECORD * MOST_RECORDS + SHEET_RECORD];
};

void add_correction(struct sheet *sheet, size_t row, size_t column, uint8_t was, uint8_t is);

/* A sheet of some records, each with any place of the text of size p and any two bytes. */
void make_sheet(struct sheet *sheet, struct chance *chance, size_t p, size_t records);

/* Gives one record of a sheet another place. */
void put_place(struct sheet *sheet, size_t record, size_t row, size_t column);

/* The faults of a record. For a place there are several: just above its edge, far above, and right but for the high byte. */
enum sheet_fault {
    FIRST_MARK_BYTE,
    SECOND_MARK_BYTE,
    MARK_SWAPPED,
    MARK_OF_A_REEL,
    MARK_OF_ZEROS,
    ROW_JUST_ABOVE,
    ROW_LARGEST,
    ROW_HIGH_BYTE,
    COLUMN_FIRST_CHECK,
    COLUMN_SECOND_CHECK,
    COLUMN_LARGEST,
    COLUMN_HIGH_BYTE,
    SHEET_FAULTS
};

/* Gives one record of a sheet a fault. */
void put_fault(struct sheet *sheet, size_t p, size_t record, enum sheet_fault fault);

#endif
