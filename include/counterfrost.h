/*
 * Counterfrost: square tiles of bytes that can be repaired. For C99 and later, and for C++.
 *
 * A tile holds a text and two columns of checks. If one row or one column of it is hurt, cf_repair finds the line and puts it right without
 * being told which; if that was a single byte, it finds the very cell. cf_recover gives the text of the repaired tile and leaves the scan
 * as it is; cf_inspect only says what is hurt. If one or two lines are lost and you know which, cf_fill fills them in. cf_judge says
 * whether a tile that somebody else restored is the one that cf_fill would make. cf_correct changes single bytes of the text on a tile that
 * may itself be hurt. cf_next reads a reel of tiles, record by record, and cf_lay makes such a record. Where there is no answer, or on an
 * old tile more than one, a call says so by a number and touches nothing.
 *
 * SIZES AND SLOPES
 *   The size p says how large a tile is: one byte less than p in each direction, so that size 5 is a tile of 4 by 4 bytes, and 257 one of
 *   256 by 256. It is one of the 53 primes between 5 and 257. A tile lies row by row in (p-1)*(p-1) bytes. Rows and columns are numbered
 *   from 0. The last two columns, p-3 and p-2, hold the checks; the text stands in the p-3 columns before them, and by itself lies row by
 *   row in (p-1)*(p-3) bytes.
 *   The slope l says how the checks run across the tile. Take the house slope that cf_house_slope gives, unless you and those who wrote
 *   the tile agreed on another: a tile is read and repaired with the size and the slope that it was written with. Which other slopes
 *   there are is told by cf_takes. docs/SPEC.md has the rules.
 *
 * NEW TILES AND OLD ONES
 *   Whoever tells a call p and l tells it the kind of the tile before them; cf_judge takes new tiles alone, and is told none. Take CF_NEW
 *   for all that you write: such a tile has one of the slopes that are allowed at p, and a lost row with a lost column has one filling
 *   there or none. CF_OLD is for tiles that were printed in earlier years, and takes every slope from 2 to p-2. Any number but 1 counts as
 *   CF_NEW, the stricter one. A reel carries the kind with each tile, and cf_next gives it.
 *   At a slope that is not allowed, a lost row with a lost column has no filling or several, and never just one; and now and then damage
 *   can be put right in two ways, by a column and by a row, which gives two different tiles. Such a call is refused with 8, and the tile
 *   stays as it was: the projectionist's old reader took the first of two fillings. All other damage, two lost rows or two lost columns
 *   among it, is put right as on a new tile.
 *   Where cf_takes(CF_NEW, p, l) is done, both kinds are answered alike, in every call. Calls with CF_NEW are never answered 8.
 *
 * FLAGS
 *   A scanner that knows which lines it lost tells so on the reel: a record of the mark D5 5E has two flags. Each of them is a line, named
 *   as for cf_fill, or CF_NO_FLAG. cf_next gives both as they stand on the reel. A tile with a flag is to be filled, and one without to be
 *   repaired. With both flags, give them to cf_fill; with a lone one, be it the first or the second, give it that one twice.
 *
 * ANSWERS
 *   Every call but cf_version answers one 64-bit word: a kind of answer, and two numbers. cf_kind, cf_first and cf_second take it apart.
 *
 *     kind              first         second        means
 *     CF_KIND_DONE      0             0             done; for cf_repair, cf_inspect and cf_recover: nothing was hurt; for cf_judge:
 *                                                   accepted; for cf_next: a tile stands here; for cf_lay: laid
 *     CF_KIND_DONE      the slope     0             for cf_house_slope only
 *     CF_KIND_COLUMN    the column    0             cf_repair put two bytes or more right, all in this column
 *     CF_KIND_ROW       the row       0             cf_repair put two bytes or more right, all in this row
 *     CF_KIND_CELL      the row       the column    cf_repair put one byte right, in this cell
 *     CF_KIND_REFUSED   the number    0             refused; see below
 *     CF_KIND_END       0             0             cf_next: the reel ends here
 *
 *   cf_inspect and cf_recover answer what cf_repair would: a column, a row or a cell is where it would change bytes.
 *
 *   Up to version 0.2.0 a single hurt byte was told as CF_KIND_COLUMN, with its column, and CF_KIND_CELL was never answered. A program that
 *   was written for such a version has to take CF_KIND_CELL too, which has the column as its second number. All else that is answered, and
 *   all bytes of a repaired tile, are as they were.
 *
 *   Up to version 0.3.0 there were no old tiles. A program that was written for it has to give CF_NEW as the first argument of cf_takes,
 *   cf_write, cf_read, cf_repair, cf_fill and cf_correct, and is then answered what it was answered before. cf_next has one number more,
 *   the kind, which comes before the others and is the one to give for that tile; a record that begins with 5D D5 was refused 6 before, and
 *   is an old tile now.
 *
 *   Up to version 0.4.0 there was no cf_judge, and no refusal above 8. Up to version 0.5.0 there was no cf_inspect and no cf_recover.
 *
 *   Up to version 0.6.1 there were no flags on a reel and no cf_lay, and no call was refused 9. A program that was written for such a
 *   version has to give cf_next two numbers more, for the flags, before the offset; a record that begins with D5 5E was refused 6 before,
 *   and is a tile with flags now.
 *
 * REFUSALS
 *   A refused call changes no byte of a tile, a text or a room. Its number says why, and cf_refusal_words has words for it. Where several
 *   apply, the one that the call's own text below names first is given.
 *
 *     1 CF_BAD_SIZE     p is not a size
 *     2 CF_BAD_SLOPE    l is not a slope that the kind can use at p
 *     3 CF_BAD_LENGTH   a tile or a text has another length than p asks for
 *     4 CF_BAD_PLACE    the tile does not have a line that was named or flagged (they end at p-2), the text does not have a place to be
 *                       corrected (its rows end at p-2, its columns at p-4), or cf_lay: the record has no place for a flag
 *     5 CF_DAMAGED      cf_read: the tile is not good; cf_repair, cf_inspect, cf_recover, cf_fill: no such repair exists
 *     6 CF_BAD_MARK     a record of a sheet does not begin with its mark, or one of a reel with none of its three
 *     7 CF_CUT_SHORT    a sheet or a reel ends within a record
 *     8 CF_DOUBTFUL     cf_repair, cf_inspect, cf_recover, cf_fill, of an old tile: two different good tiles would do, and nothing tells
 *                       which was printed
 *     9 CF_TOO_SMALL    cf_lay: the room is shorter than the record
 *    10 CF_NOT_GOOD     cf_judge: the restored tile is not good
 *    11 CF_DIFFERS_ELSEWHERE
 *                       cf_judge: the restored tile is good, and differs from the scan outside the named lines
 *
 * WHO OWNS WHAT
 *   All memory is yours. A call uses it until it returns, and keeps no pointer; it allocates nothing, and holds no state, so calls may run
 *   on several threads at once, each on memory of its own. cf_write, cf_fill and cf_correct need at most two kilobytes of stack, what a
 *   reader calls (cf_read, cf_repair, cf_inspect, cf_recover and cf_judge) at most one and a quarter, and all others at most half of one.
 *   Each pointer must point to as many bytes as its length says, and must not be null, not even where the length is 0. What is written to
 *   (a tile, a text, a room, a number) must not overlap anything else that is lent to the same call. What is const is not changed.
 *
 * What each call answers, and what it leaves in the memory that it was lent, is proved, for every size, slope, length and byte: in the
 * repository, crates/counterfrost holds the code and docs/PROMISES.md says what is shown. The compiler is not covered by the proof; the
 * archive is tested against a second implementation. The depth of the stack is measured, call by call, and held to these numbers.
 */
#ifndef COUNTERFROST_H
#define COUNTERFROST_H

#include <stddef.h>
#include <stdint.h>

#ifdef __cplusplus
extern "C" {
#endif

/* The version of this header: 10000 times the first of its numbers, 100 times the second, and the third. cf_version gives that of the
 * library. Until 1.0.0 calls may change where the second number does; the shared library is named by these two. */
#define CF_VERSION 800
#define CF_VERSION_TEXT "0.8.0"

/* The kinds of a tile, which a call is told before p and l, and which cf_next gives back. Any number but 1 counts as new. */
#define CF_NEW 0u
#define CF_OLD 1u

/* The record with flags, for cf_lay, which is told CF_NEW or CF_OLD for one without. As the kind of a tile it counts as new. */
#define CF_FLAGGED 2u

/* The flag for no line. */
#define CF_NO_FLAG 0xffffu

/* The kinds of an answer. The lines that cf_fill and cf_judge are told are named by cf_row and cf_column, further below, and not by
 * these. */
#define CF_KIND_DONE 0u
#define CF_KIND_COLUMN 1u
#define CF_KIND_ROW 2u
#define CF_KIND_CELL 3u
#define CF_KIND_REFUSED 4u
#define CF_KIND_END 7u

/* The numbers of a refusal. */
#define CF_BAD_SIZE 1u
#define CF_BAD_SLOPE 2u
#define CF_BAD_LENGTH 3u
#define CF_BAD_PLACE 4u
#define CF_DAMAGED 5u
#define CF_BAD_MARK 6u
#define CF_CUT_SHORT 7u
#define CF_DOUBTFUL 8u
#define CF_TOO_SMALL 9u
#define CF_NOT_GOOD 10u
#define CF_DIFFERS_ELSEWHERE 11u

/* The version of the library, a number as CF_VERSION is. */
uint64_t cf_version(void);

/* The house slope of the size p: the least one that a new tile can use there. CF_KIND_DONE with the slope, or refused 1. */
uint64_t cf_house_slope(size_t p);

/* Whether p is a size, and l a slope that a tile of this kind, CF_NEW or CF_OLD, can use there; no tile is needed to ask. CF_KIND_DONE, or
 * refused 1 or 2. */
uint64_t cf_takes(size_t kind, size_t p, size_t l);

/* Writes the good tile that has the text; what the tile held before does not matter. CF_KIND_DONE, or refused 1, 2 or 3. */
uint64_t cf_write(size_t kind, size_t p, size_t l, const uint8_t *text, size_t text_len, uint8_t *tile, size_t tile_len);

/* Reads the text out of a good tile. CF_KIND_DONE, or refused 1, 2, 3, or 5 for a tile that is not good: take cf_recover for that one. */
uint64_t cf_read(size_t kind, size_t p, size_t l, const uint8_t *tile, size_t tile_len, uint8_t *text, size_t text_len);

/*
 * Repairs a tile of which one column or one row may be hurt. CF_KIND_DONE: it is good, and was not touched. Otherwise it becomes the good
 * tile that can be had by changing one line alone, where there is exactly one. The answer says what had to change for it. CF_KIND_CELL:
 * one byte, in this row and this column. CF_KIND_COLUMN or CF_KIND_ROW: two bytes or more, which all stand on this line. Refused 1, 2, 3,
 * or 5 where no line can be put right so that the tile is good; or 8 where a column and a row can, and give two different good tiles. This
 * last happens to an old tile alone, at a slope that is not allowed, and then to few.
 *
 * A repaired tile is always good. If more than one line was hurt it may be another good tile than the one that was printed, and no reader
 * could tell: if you know the lines, use cf_fill.
 */
uint64_t cf_repair(size_t kind, size_t p, size_t l, uint8_t *tile, size_t tile_len);

/* Says what is hurt in a scanned tile: answers what cf_repair would, and writes nothing. Refused 1, 2, 3, 5 or 8, as cf_repair is. */
uint64_t cf_inspect(size_t kind, size_t p, size_t l, const uint8_t *scan, size_t scan_len);

/*
 * Repairs a scanned tile and reads it, in one call, and leaves the scan as it is. The answer is that of cf_repair, and the text becomes
 * that of the tile which cf_repair would leave: what cf_read gives after cf_repair of a copy. Of a good tile, CF_KIND_DONE, it is what
 * cf_read gives. Refused 1, 2, 3 where the scan or the text has another length, or 5 or 8 where cf_repair would refuse the scan so. A
 * refused call leaves the text as it was.
 */
uint64_t cf_recover(size_t kind, size_t p, size_t l, const uint8_t *scan, size_t scan_len, uint8_t *text, size_t text_len);

/*
 * Fills one or two lost lines, whatever bytes they hold now. Each line is named by cf_row(3) or cf_column(3), ALWAYS: a bare number is
 * taken for a row, and a column is 8000 hex plus its number. For one line, name it twice. The tile becomes the only good one that is the
 * same outside these lines. CF_KIND_DONE, or refused 1, 2, 3, 4 for a line that the tile does not have, 5 where there is no such tile, or 8
 * where there are several. Two rows, or two columns, can always be filled, on old tiles too. A row with a column of an old tile whose slope
 * is not allowed never can: it is refused with 5 or 8, whatever the bytes.
 */
uint64_t cf_fill(size_t kind, size_t p, size_t l, uint8_t *tile, size_t tile_len, size_t first, size_t second);

/*
 * Judges a tile that somebody restored from a scan, by hand or by other means, and the one or two lines that are said to have been hurt.
 * These are named as for cf_fill. Both tiles have the size p and the slope l, which has to be one that CF_NEW can use. Nothing is written,
 * so the two may lie in the same memory.
 *
 * CF_KIND_DONE: accepted. The restored tile is good, and is the same as the scan outside the named lines; so it is the very tile that
 * cf_fill makes of the scan when it is told these lines, and cf_fill is done there. What cf_fill makes is always accepted, and no other
 * tile is. Refused 1, 2, 3 where either tile has another length, 4 for a line that the tiles do not have, 10 where the restored tile is
 * not good, or 11 where it is good, and differs from the scan in a byte outside these lines.
 */
uint64_t cf_judge(size_t p, size_t l, const uint8_t *scan, size_t scan_len, const uint8_t *restored, size_t restored_len, size_t first,
                  size_t second);

/*
 * Corrects the text of a tile by a sheet: records of 8 bytes, one behind the other, as cf_lay_correction lays them. The tile need not be
 * good: each record changes its cell, and the check columns, by the difference of its two bytes, so that what was hurt before can be
 * repaired as before, and what was doubtful stays so. What "was" says is not compared with the tile.
 *
 * CF_KIND_DONE, with the number of records in *count_or_offset. Refused 1, 2, 3 or 7, with 0 there; or 6 or 4, with the offset of the first
 * faulty record (6 if that record has both faults). Nothing is changed before all records are judged. *count_or_offset is set by every
 * call.
 */
uint64_t cf_correct(size_t kind, size_t p, size_t l, uint8_t *tile, size_t tile_len, const uint8_t *sheet, size_t sheet_len,
                    uint64_t *count_or_offset);

/*
 * Says what stands at a place of a reel. A reel is a run of records without gaps, each a mark (D5 5D for a new tile, D5 5E for a new tile
 * with flags, 5D D5 for an old one), p (2 bytes, the high one first), l (2 bytes), the tile's number (4 bytes), behind the mark D5 5E two
 * flags (2 bytes each), and the tile's bytes. A place is an offset from the beginning of the reel; begin with 0.
 *
 * CF_KIND_DONE: a tile. You get its kind, CF_NEW or CF_OLD, its number, its p and l, its two flags, each a line or CF_NO_FLAG, and the
 * offset where its bytes begin; the next record is at that offset plus cf_tile_len(p). CF_KIND_END: the reel has no byte at the place.
 * Refused 7 (fewer than 10 bytes are left), 6, 7 (the mark is D5 5E, and fewer than 14 are left), 1, 2 (by the kind that the mark says), 4
 * (a flag names a line that the tile does not have), or 7 (the tile is cut), with the place itself in *offset. All seven numbers are set by
 * every call: where there is no value, the flags to CF_NO_FLAG and the others to 0. The tile is not judged: it may be hurt. cf_inspect and
 * cf_recover leave it on the reel as it is; to repair or to fill it, copy its bytes first, or let the reel be yours to change.
 */
uint64_t cf_next(const uint8_t *reel, size_t reel_len, size_t at, uint64_t *kind, uint64_t *number, uint64_t *p, uint64_t *l,
                 uint64_t *first, uint64_t *second, uint64_t *offset);

/*
 * Puts a record of a reel together: its mark, p, l, the tile's number, for CF_FLAGGED its flags, and the tile. `which` is CF_NEW, CF_OLD or
 * CF_FLAGGED; every other number counts as CF_NEW. The flags are named as for cf_fill, or are CF_NO_FLAG; CF_NEW and CF_OLD have no place
 * for a flag, and both have to be CF_NO_FLAG there. The tile is not judged: it may be hurt.
 *
 * CF_KIND_DONE: the record is the first bytes of the room, and *length says how many, which is cf_record_len(which, p). What stands behind
 * them stays as it was, so that the next record can be laid there. Refused 1, 2, 3, 4 for a flag that the record cannot carry, or 9 where
 * the room is too small for it; then *length is 0, and the room stays as it was. cf_next reads what was laid, and gives back what it was
 * laid from.
 */
uint64_t cf_lay(size_t which, size_t p, size_t l, uint32_t number, size_t first, size_t second, const uint8_t *tile, size_t tile_len,
                uint8_t *room, size_t room_len, uint64_t *length);

/* The kind of an answer, and its two numbers. */
static inline unsigned cf_kind(uint64_t answer) { return (unsigned)(answer >> 32); }

static inline unsigned cf_first(uint64_t answer) { return (unsigned)(answer >> 16 & 0xffffu); }

static inline unsigned cf_second(uint64_t answer) { return (unsigned)(answer & 0xffffu); }

/* The number of a refusal; 0 where the answer is none. */
static inline unsigned cf_refusal(uint64_t answer) { return cf_kind(answer) == CF_KIND_REFUSED ? cf_first(answer) : 0u; }

/* Words for the number of a refusal, as cf_refusal gives it, for people to read. Every number has some: 0 is "not refused". */
static inline const char *cf_refusal_words(unsigned refusal)
{
    switch (refusal) {
    case 0u:
        return "not refused";
    case CF_BAD_SIZE:
        return "the size is not one of the primes between 5 and 257";
    case CF_BAD_SLOPE:
        return "the slope cannot be used at this size by a tile of this kind";
    case CF_BAD_LENGTH:
        return "a tile or a text does not have the length of this size";
    case CF_BAD_PLACE:
        return "the tile does not have that line, its text that place, or the record a place for that flag";
    case CF_DAMAGED:
        return "the tile is damaged: no such repair exists, or it has to be repaired before it is read";
    case CF_BAD_MARK:
        return "a record does not begin with a mark";
    case CF_CUT_SHORT:
        return "a sheet or a reel ends within a record";
    case CF_DOUBTFUL:
        return "the tile is doubtful: two different good tiles would do, and nothing tells which was printed";
    case CF_TOO_SMALL:
        return "the room is too small for the record";
    case CF_NOT_GOOD:
        return "the restored tile is not good";
    case CF_DIFFERS_ELSEWHERE:
        return "the restored tile differs from the scan outside the named lines";
    default:
        return "no refusal has this number";
    }
}

/* The name of a row and of a column, for cf_fill and cf_judge, and as a flag. A number of 7ffe hex or more is named as 7ffe hex: no tile
 * has that line, and it is refused 4. So no line is named CF_NO_FLAG. */
static inline size_t cf_row(size_t row) { return row < 0x7ffeu ? row : 0x7ffeu; }

static inline size_t cf_column(size_t column) { return 0x8000u + (column < 0x7ffeu ? column : 0x7ffeu); }

/* Lays one record of a sheet into 8 bytes: the mark C3 3C, the row and the column (2 bytes each, the high one first), the byte that stood
 * there, and the one that is to stand there. A row or column of ffff hex or more is laid as ffff hex: no text has it, and it is
 * refused 4. */
static inline void cf_lay_correction(uint8_t record[8], size_t row, size_t column, uint8_t was, uint8_t is)
{
    size_t r = row < 0xffffu ? row : 0xffffu;
    size_t c = column < 0xffffu ? column : 0xffffu;
    record[0] = 0xC3;
    record[1] = 0x3C;
    record[2] = (uint8_t)(r >> 8);
    record[3] = (uint8_t)(r & 0xffu);
    record[4] = (uint8_t)(c >> 8);
    record[5] = (uint8_t)(c & 0xffu);
    record[6] = was;
    record[7] = is;
}

/* How many bytes a tile of size p has, and its text, for p from 5 to 257. */
static inline size_t cf_tile_len(size_t p) { return (p - 1) * (p - 1); }

static inline size_t cf_text_len(size_t p) { return (p - 1) * (p - 3); }

/* How many bytes a record on a reel has, for p from 5 to 257; every number but CF_FLAGGED stands for a record without flags. */
static inline size_t cf_record_len(size_t which, size_t p) { return (which == CF_FLAGGED ? 14u : 10u) + cf_tile_len(p); }

#ifdef __cplusplus
}
#endif

#endif
