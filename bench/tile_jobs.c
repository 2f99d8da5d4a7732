/* The jobs of the tile calls, of the sheet and of a record: the same seventeen for the library and for the independent implementation,
 * whose calls have the same parameters. */

#include <string.h>

#include "counterfrost.h"
#include "job.h"
#include "material.h"
#include "peer.h"

enum { RECORD = 8, RANDOM_FOR_RECORD = 5, DAMAGE_SEED = 3, SHEET_SEED = 4, NUMBER = 7 };

/* The calls of one implementation. */
struct calls {
    uint64_t (*write)(size_t, size_t, size_t, const uint8_t *, size_t, uint8_t *, size_t);
    uint64_t (*read)(size_t, size_t, size_t, const uint8_t *, size_t, uint8_t *, size_t);
    uint64_t (*repair)(size_t, size_t, size_t, uint8_t *, size_t);
    uint64_t (*inspect)(size_t, size_t, size_t, const uint8_t *, size_t);
    uint64_t (*recover)(size_t, size_t, size_t, const uint8_t *, size_t, uint8_t *, size_t);
    uint64_t (*fill)(size_t, size_t, size_t, uint8_t *, size_t, size_t, size_t);
    uint64_t (*judge)(size_t, size_t, const uint8_t *, size_t, const uint8_t *, size_t, size_t, size_t);
    uint64_t (*correct)(size_t, size_t, size_t, uint8_t *, size_t, const uint8_t *, size_t, uint64_t *);
    uint64_t (*lay)(size_t, size_t, size_t, uint32_t, size_t, size_t, const uint8_t *, size_t, uint8_t *, size_t, uint64_t *);
};

/* What a job's call is given besides the copy. Each job uses the part that it needs. */
struct given {
    const struct calls *calls;
    uint8_t *text;
    uint8_t *tile;
    uint8_t *scan;
    size_t first, second; /* the lines to fill, or that were restored, or are flagged */
    uint8_t *sheet;
    size_t sheet_length;
};

static uint64_t call_write(const struct job *job, uint8_t *copy)
{
    const struct given *given = job->given;

    return given->calls->write(CF_NEW, job->p, SLOPE, given->text, cf_text_len(job->p), copy, job->length);
}

static uint64_t call_read(const struct job *job, uint8_t *copy)
{
    const struct given *given = job->given;

    return given->calls->read(CF_NEW, job->p, SLOPE, given->tile, cf_tile_len(job->p), copy, job->length);
}

static uint64_t call_repair(const struct job *job, uint8_t *copy)
{
    const struct given *given = job->given;

    return given->calls->repair(CF_NEW, job->p, SLOPE, copy, job->length);
}

static uint64_t call_inspect(const struct job *job, uint8_t *copy)
{
    const struct given *given = job->given;

    return given->calls->inspect(CF_NEW, job->p, SLOPE, copy, job->length);
}

static uint64_t call_recover(const struct job *job, uint8_t *copy)
{
    const struct given *given = job->given;

    return given->calls->recover(CF_NEW, job->p, SLOPE, given->scan, cf_tile_len(job->p), copy, job->length);
}

static uint64_t call_fill(const struct job *job, uint8_t *copy)
{
    const struct given *given = job->given;

    return given->calls->fill(CF_NEW, job->p, SLOPE, copy, job->length, given->first, given->second);
}

static uint64_t call_judge(const struct job *job, uint8_t *copy)
{
    const struct given *given = job->given;

    return given->calls->judge(job->p, SLOPE, given->scan, job->length, copy, job->length, given->first, given->second);
}

/* Answers the count of records; for anything but Done, a number that no sheet has as its count. */
static uint64_t call_correct(const struct job *job, uint8_t *copy)
{
    const struct given *given = job->given;
    uint64_t count;
    uint64_t word = given->calls->correct(CF_NEW, job->p, SLOPE, copy, job->length, given->sheet, given->sheet_length, &count);

    return word == 0 ? count : UINT64_MAX;
}

/* Answers the length of the record; for anything but Done, a length that none has. */
static uint64_t call_lay(const struct job *job, uint8_t *copy)
{
    const struct given *given = job->given;
    uint64_t length;
    uint64_t word = given->calls->lay(CF_FLAGGED, job->p, SLOPE, NUMBER, given->first, given->second, given->tile, cf_tile_len(job->p),
                                      copy, job->length, &length);

    return word == 0 ? length : UINT64_MAX;
}

/* An answer as the calls give it, put together here from its parts. */
static uint64_t answer_of(uint64_t kind, uint64_t first) { return kind << 32 | first << 16; }

static void damage_column(uint8_t *tile, size_t p, size_t column)
{
    uint8_t change[257];

    put_random(change, p - 1, DAMAGE_SEED + column);
    for (size_t row = 0; row < p - 1; row++)
        tile[row * (p - 1) + column] ^= change[row];
}

static void damage_row(uint8_t *tile, size_t p, size_t row)
{
    uint8_t change[257];

    put_random(change, p - 1, DAMAGE_SEED + row);
    for (size_t column = 0; column < p - 1; column++)
        tile[row * (p - 1) + column] ^= change[column];
}

static void prepare_write(struct job *job, struct given *given)
{
    job->call = call_write;
    job->before = new_waste(cf_tile_len(job->p));
    job->after = given->tile;
}

static void prepare_read(struct job *job, struct given *given)
{
    job->call = call_read;
    job->length = cf_text_len(job->p);
    job->before = new_waste(job->length);
    job->after = given->text;
}

/* A repair of the tile as `damaged` holds it, which has to answer `answer`. */
static void prepare_repair(struct job *job, struct given *given, uint8_t *damaged, uint64_t answer)
{
    job->call = call_repair;
    job->before = damaged;
    job->after = given->tile;
    job->answer = answer;
}

/* An inspection of the tile as `damaged` holds it, which stays so. */
static void prepare_inspect(struct job *job, uint8_t *damaged, uint64_t answer)
{
    job->call = call_inspect;
    job->before = damaged;
    job->after = damaged;
    job->answer = answer;
}

/* A recovery of the text out of the tile as `damaged` holds it: the text that is read out of the tile as it was. */
static void prepare_recover(struct job *job, struct given *given, uint8_t *damaged, uint64_t answer)
{
    prepare_read(job, given);
    job->call = call_recover;
    job->answer = answer;
    given->scan = damaged;
}

/* A filling of two lines, each lost as a whole. */
static void prepare_fill(struct job *job, struct given *given, uint8_t *damaged, size_t first, size_t second)
{
    job->call = call_fill;
    job->before = damaged;
    job->after = given->tile;
    given->first = first;
    given->second = second;
}

/* A judgement of the tile as it was, restored from a scan of which two lines are lost as a whole. */
static void prepare_judge(struct job *job, struct given *given, uint8_t *damaged, size_t first, size_t second)
{
    job->call = call_judge;
    job->before = given->tile;
    job->after = given->tile;
    given->scan = damaged;
    given->first = first;
    given->second = second;
}

/* The record of the tile with two flags, into room for just that. */
static void prepare_lay(struct job *job, struct given *given, size_t row, size_t column)
{
    const uint8_t header[] = {
        0xd5, 0x5e, (uint8_t)(job->p >> 8), (uint8_t)job->p, 0, SLOPE, 0, 0, 0, NUMBER, 0, (uint8_t)row, 0x80, (uint8_t)column,
    };
    uint8_t *record;

    job->call = call_lay;
    job->length = sizeof header + cf_tile_len(job->p);
    job->before = new_waste(job->length);
    record = new_memory(job->length);
    memcpy(record, header, sizeof header);
    memcpy(record + sizeof header, given->tile, cf_tile_len(job->p));
    job->after = record;
    job->answer = job->length;
    given->first = cf_row(row);
    given->second = cf_column(column);
}

/* Puts one record into the sheet and its correction into the text: a place, the byte there now, and another byte. */
static void put_record(uint8_t *record, uint8_t *text, size_t p, const uint8_t *random)
{
    size_t row = (random[0] * 256u + random[1]) % (p - 1);
    size_t column = (random[2] * 256u + random[3]) % (p - 3);
    uint8_t *was = text + row * (p - 3) + column;
    uint8_t is = (uint8_t)(*was ^ random[4]);
    const uint8_t bytes[RECORD] = {
        0xc3, 0x3c, (uint8_t)(row >> 8), (uint8_t)row, (uint8_t)(column >> 8), (uint8_t)column, *was, is,
    };

    memcpy(record, bytes, RECORD);
    *was = is;
}

static void prepare_correct(struct job *job, struct given *given, size_t records)
{
    uint8_t *text = new_copy(given->text, cf_text_len(job->p));
    uint8_t *random = new_memory(RANDOM_FOR_RECORD * records);

    put_random(random, RANDOM_FOR_RECORD * records, SHEET_SEED);
    given->sheet_length = RECORD * records;
    given->sheet = new_memory(given->sheet_length);
    for (size_t i = 0; i < records; i++)
        put_record(given->sheet + RECORD * i, text, job->p, random + RANDOM_FOR_RECORD * i);
    job->call = call_correct;
    job->before = given->tile;
    job->after = new_tile(job->p, text);
    job->answer = records;
}

/* The jobs by name. A lone hurt line is the last of its kind, where the search comes last; the last column of all holds checks, so
 * where the text has to be mended it is the last one of the text. Lost lines lie a third and two thirds of the way. */
static bool prepare_tile_job(const struct calls *calls, const char *name, size_t p, struct job *job)
{
    struct given *given = new_memory(sizeof *given);
    size_t last = p - 2, last_of_text = p - 4, third = p / 3, two_thirds = 2 * p / 3;
    uint8_t *hurt;

    given->calls = calls;
    given->text = new_text(p);
    given->tile = new_tile(p, given->text);
    hurt = new_copy(given->tile, cf_tile_len(p));
    *job = (struct job){ .given = given, .p = p, .length = cf_tile_len(p), .answer = answer_of(CF_KIND_DONE, 0) };
    if (strcmp(name, "write") == 0) {
        prepare_write(job, given);
    } else if (strcmp(name, "read") == 0) {
        prepare_read(job, given);
    } else if (strcmp(name, "repair-clean") == 0) {
        prepare_repair(job, given, hurt, answer_of(CF_KIND_DONE, 0));
    } else if (strcmp(name, "repair-column") == 0) {
        damage_column(hurt, p, last);
        prepare_repair(job, given, hurt, answer_of(CF_KIND_COLUMN, last));
    } else if (strcmp(name, "repair-text-column") == 0) {
        damage_column(hurt, p, last_of_text);
        prepare_repair(job, given, hurt, answer_of(CF_KIND_COLUMN, last_of_text));
    } else if (strcmp(name, "repair-row") == 0) {
        damage_row(hurt, p, last);
        prepare_repair(job, given, hurt, answer_of(CF_KIND_ROW, last));
    } else if (strcmp(name, "inspect-column") == 0) {
        damage_column(hurt, p, last);
        prepare_inspect(job, hurt, answer_of(CF_KIND_COLUMN, last));
    } else if (strcmp(name, "recover-clean") == 0) {
        prepare_recover(job, given, hurt, answer_of(CF_KIND_DONE, 0));
    } else if (strcmp(name, "recover-text-column") == 0) {
        damage_column(hurt, p, last_of_text);
        prepare_recover(job, given, hurt, answer_of(CF_KIND_COLUMN, last_of_text));
    } else if (strcmp(name, "recover-row") == 0) {
        damage_row(hurt, p, last);
        prepare_recover(job, given, hurt, answer_of(CF_KIND_ROW, last));
    } else if (strcmp(name, "fill-columns") == 0) {
        damage_column(hurt, p, third);
        damage_column(hurt, p, two_thirds);
        prepare_fill(job, given, hurt, cf_column(third), cf_column(two_thirds));
    } else if (strcmp(name, "fill-rows") == 0) {
        damage_row(hurt, p, third);
        damage_row(hurt, p, two_thirds);
        prepare_fill(job, given, hurt, cf_row(third), cf_row(two_thirds));
    } else if (strcmp(name, "fill-crossed") == 0) {
        damage_row(hurt, p, third);
        damage_column(hurt, p, two_thirds);
        prepare_fill(job, given, hurt, cf_row(third), cf_column(two_thirds));
    } else if (strcmp(name, "judge") == 0) {
        damage_row(hurt, p, third);
        damage_column(hurt, p, two_thirds);
        prepare_judge(job, given, hurt, cf_row(third), cf_column(two_thirds));
    } else if (strcmp(name, "lay") == 0) {
        prepare_lay(job, given, third, two_thirds);
    } else if (strcmp(name, "correct-1") == 0) {
        prepare_correct(job, given, 1);
    } else if (strcmp(name, "correct-100") == 0) {
        prepare_correct(job, given, 100);
    } else {
        return false;
    }
    return true;
}

bool prepare_counterfrost(const char *name, size_t p, struct job *job)
{
    static const struct calls calls = { cf_write, cf_read, cf_repair, cf_inspect, cf_recover, cf_fill, cf_judge, cf_correct, cf_lay };

    return prepare_tile_job(&calls, name, p, job);
}

bool prepare_peer(const char *name, size_t p, struct job *job)
{
    static const struct calls calls = {
        peer_write, peer_read, peer_repair, peer_inspect, peer_recover, peer_fill, peer_judge, peer_correct, peer_lay,
    };

    return prepare_tile_job(&calls, name, p, job);
}
