/* All sides are asked, and compared: see ask.h. */

#include "ask.h"

#include <inttypes.h>
#include <stdio.h>
#include <string.h>

#include "counterfrost.h"
#include "differences.h"
#include "lent.h"
#include "peer.h"
#include "peer_rules.h"

enum { MOST_TOLD = 6, MOST_LENT = 2, MOST_NUMBERS = 7, SHOWN_BYTES = 128 };

/* Who is asked: the peer, the library, and the library once more, with the other kind. */
enum side { PEER, LIBRARY, OTHER_KIND, SIDES };

static const char *const name_of[SIDES] = {"peer", "library", "library, of the other kind"};

/* Some lent bytes: as the caller gave them, and as each side was lent them. */
struct lent_to_all {
    const char *name;
    const uint8_t *given;
    uint8_t *for_writing; /* the caller's own bytes, or null where they are lent for reading alone */
    struct lent side[SIDES];
};

struct number_of_all {
    const char *name;
    struct lent_number side[SIDES];
};

/* A question, with the numbers that are told, what is lent for it and what is answered. It is put into words for a difference only. */
struct question {
    const char *format;
    size_t told[MOST_TOLD];
    size_t sides; /* how many are asked: all, or all but the other kind */
    size_t kind[SIDES];
    size_t lent_count, number_count;
    struct lent_to_all lent[MOST_LENT];
    struct number_of_all number[MOST_NUMBERS];
    uint64_t word[SIDES];
};

/* The numbers that are told; those that are not listed are 0. */
#define TOLD(...) ((const size_t[MOST_TOLD]){__VA_ARGS__})

/* The format has a place for each number that is told. */
static void put(struct question *question, const char *format, const size_t *told)
{
    question->format = format;
    memcpy(question->told, told, sizeof question->told);
    question->sides = OTHER_KIND;
    question->lent_count = question->number_count = 0;
}

/* A question with a kind, p and l. Where both kinds judge p and l alike, they have to be answered alike. */
static void put_of_tile(struct question *question, const char *format, size_t kind, size_t p, size_t l, size_t first, size_t second)
{
    put(question, format, TOLD(kind, p, l, first, second));
    if (judge_slope(NEW, p, l) == judge_slope(OLD, p, l))
        question->sides = SIDES;
    question->kind[PEER] = question->kind[LIBRARY] = kind;
    question->kind[OTHER_KIND] = kind == OLD ? NEW : OLD;
}

static struct lent_to_all *lend_to_all(struct question *question, const char *name, const uint8_t *given, size_t length)
{
    struct lent_to_all *lent = &question->lent[question->lent_count++];
    lent->name = name;
    lent->given = given;
    lent->for_writing = NULL;
    for (size_t side = 0; side < question->sides; side++)
        lent->side[side] = lend(given, length);
    return lent;
}

static struct lent *for_reading(struct question *question, const char *name, const uint8_t *given, size_t length)
{
    return lend_to_all(question, name, given, length)->side;
}

static struct lent *for_writing(struct question *question, const char *name, uint8_t *given, size_t length)
{
    struct lent_to_all *lent = lend_to_all(question, name, given, length);
    lent->for_writing = given;
    return lent->side;
}

static struct lent_number *for_a_number(struct question *question, const char *name)
{
    struct number_of_all *number = &question->number[question->number_count++];
    number->name = name;
    for (size_t side = 0; side < question->sides; side++)
        number->side[side] = lend_number();
    return number->side;
}

/* Whether a side has changed a guard, or a byte that was lent for reading alone. */
static int overstepped(const struct lent_to_all *lent, size_t side)
{
    struct touched touched;
    const struct lent *own = &lent->side[side];
    return guard_touched(own, &touched) || (lent->for_writing == NULL && memcmp(own->bytes, lent->given, own->length) != 0);
}

/* Whether a side has overstepped, or has left something else than the peer. */
static int side_differs(const struct question *question, size_t side)
{
    int found = question->word[side] != question->word[PEER];
    for (size_t k = 0; k < question->lent_count; k++) {
        const struct lent_to_all *lent = &question->lent[k];
        found |= overstepped(lent, side) || memcmp(lent->side[side].bytes, lent->side[PEER].bytes, lent->side[PEER].length) != 0;
    }
    for (size_t k = 0; k < question->number_count; k++) {
        const struct number_of_all *number = &question->number[k];
        found |= number_guard_touched(&number->side[side]) || number->side[side].value != number->side[PEER].value;
    }
    return found;
}

static int differs(const struct question *question)
{
    int found = 0;
    for (size_t side = 0; side < question->sides; side++)
        found |= side_differs(question, side);
    return found;
}

static const char *kind_in_words(uint64_t word)
{
    static const char *const kinds[] = {"done", "column", "row", "cell", "refused", "kind 5", "kind 6", "end"};
    return word >> 32 < 8 ? kinds[word >> 32] : "no known kind";
}

static void print_answer(const struct question *question, size_t side)
{
    uint64_t word = question->word[side];
    const char *who = name_of[side];
    detail("%s: %s, first %u, second %u (word %" PRIx64 ")", who, kind_in_words(word), cf_first(word), cf_second(word), word);
    for (size_t k = 0; k < question->number_count; k++)
        detail("%s: %s %" PRIu64, who, question->number[k].name, question->number[k].side[side].value);
}

/* What was given, where it is short enough to be read. */
static void print_given(const struct lent_to_all *lent)
{
    size_t length = lent->side[PEER].length;
    if (length > SHOWN_BYTES) {
        detail("%s before: %zu bytes", lent->name, length);
        return;
    }
    char shown[3 * SHOWN_BYTES + 1] = "";
    for (size_t k = 0; k < length; k++)
        sprintf(&shown[3 * k], " %02X", lent->given[k]);
    detail("%s before: %zu bytes%s%s", lent->name, length, length == 0 ? "" : ":", shown);
}

static void print_first_different_byte(const struct lent_to_all *lent, size_t side)
{
    const uint8_t *other = lent->side[side].bytes, *peer = lent->side[PEER].bytes;
    for (size_t k = 0; k < lent->side[PEER].length; k++) {
        if (other[k] != peer[k]) {
            detail("%s, byte %zu: %02X before, %s %02X, peer %02X", lent->name, k, lent->given[k], name_of[side], other[k], peer[k]);
            return;
        }
    }
}

static void print_overstepping(const struct lent_to_all *lent, size_t side)
{
    struct touched touched;
    if (!overstepped(lent, side))
        return;
    if (guard_touched(&lent->side[side], &touched))
        detail("the %s changed what was not lent: byte %ld of %s, from %02X to %02X", name_of[side], touched.place, lent->name, touched.was,
               touched.is);
    else
        detail("the %s changed %s, which was lent for reading", name_of[side], lent->name);
}

/* What a side has left. */
static void print_left(const struct question *question, size_t side)
{
    for (size_t k = 0; k < question->lent_count; k++) {
        print_first_different_byte(&question->lent[k], side);
        print_overstepping(&question->lent[k], side);
    }
    for (size_t k = 0; k < question->number_count; k++)
        if (number_guard_touched(&question->number[k].side[side]))
            detail("the %s changed bytes beside the number %s", name_of[side], question->number[k].name);
}

/* The answer of the other kind is shown only where it is another one. */
static void print_question(const struct question *question)
{
    char words[200];
    const size_t *told = question->told;
    snprintf(words, sizeof words, question->format, told[0], told[1], told[2], told[3], told[4], told[5]);
    detail("asked: %s", words);
    for (size_t k = 0; k < question->lent_count; k++)
        print_given(&question->lent[k]);
    for (size_t side = 0; side < question->sides; side++) {
        if (side != OTHER_KIND || side_differs(question, side))
            print_answer(question, side);
        print_left(question, side);
    }
}

/* Compares all sides, hands the peer's bytes to the caller, and gives the peer's answer. */
static uint64_t compare(struct question *question)
{
    for (size_t side = LIBRARY; side < question->sides; side++)
        count_call();
    if (differs(question)) {
        begin_difference();
        print_question(question);
        end_difference();
    }
    for (size_t k = 0; k < question->lent_count; k++) {
        struct lent_to_all *lent = &question->lent[k];
        if (lent->for_writing != NULL)
            memcpy(lent->for_writing, lent->side[PEER].bytes, lent->side[PEER].length);
        for (size_t side = 0; side < question->sides; side++)
            take_back(&lent->side[side]);
    }
    return question->word[PEER];
}

uint64_t ask_house_slope(size_t p)
{
    struct question question;
    put(&question, "cf_house_slope, p %zu", TOLD(p));
    question.word[PEER] = peer_house_slope(p);
    question.word[LIBRARY] = cf_house_slope(p);
    return compare(&question);
}

uint64_t ask_takes(size_t kind, size_t p, size_t l)
{
    struct question question;
    put_of_tile(&question, "cf_takes, kind %zu, p %zu, l %zu", kind, p, l, 0, 0);
    for (size_t side = 0; side < question.sides; side++)
        question.word[side] = (side == PEER ? peer_takes : cf_takes)(question.kind[side], p, l);
    return compare(&question);
}

uint64_t ask_write(size_t kind, size_t p, size_t l, const uint8_t *text, size_t text_len, uint8_t *tile, size_t tile_len)
{
    struct question question;
    put_of_tile(&question, "cf_write, kind %zu, p %zu, l %zu", kind, p, l, 0, 0);
    struct lent *texts = for_reading(&question, "text", text, text_len);
    struct lent *tiles = for_writing(&question, "tile", tile, tile_len);
    for (size_t side = 0; side < question.sides; side++)
        question.word[side] =
            (side == PEER ? peer_write : cf_write)(question.kind[side], p, l, texts[side].bytes, text_len, tiles[side].bytes, tile_len);
    return compare(&question);
}

uint64_t ask_read(size_t kind, size_t p, size_t l, const uint8_t *tile, size_t tile_len, uint8_t *text, size_t text_len)
{
    struct question question;
    put_of_tile(&question, "cf_read, kind %zu, p %zu, l %zu", kind, p, l, 0, 0);
    struct lent *tiles = for_reading(&question, "tile", tile, tile_len);
    struct lent *texts = for_writing(&question, "text", text, text_len);
    for (size_t side = 0; side < question.sides; side++)
        question.word[side] =
            (side == PEER ? peer_read : cf_read)(question.kind[side], p, l, tiles[side].bytes, tile_len, texts[side].bytes, text_len);
    return compare(&question);
}

uint64_t ask_repair(size_t kind, size_t p, size_t l, uint8_t *tile, size_t tile_len)
{
    struct question question;
    put_of_tile(&question, "cf_repair, kind %zu, p %zu, l %zu", kind, p, l, 0, 0);
    struct lent *tiles = for_writing(&question, "tile", tile, tile_len);
    for (size_t side = 0; side < question.sides; side++)
        question.word[side] = (side == PEER ? peer_repair : cf_repair)(question.kind[side], p, l, tiles[side].bytes, tile_len);
    return compare(&question);
}

uint64_t ask_fill(size_t kind, size_t p, size_t l, uint8_t *tile, size_t tile_len, size_t first, size_t second)
{
    struct question question;
    put_of_tile(&question, "cf_fill, kind %zu, p %zu, l %zu, lines %zx and %zx hex", kind, p, l, first, second);
    struct lent *tiles = for_writing(&question, "tile", tile, tile_len);
    for (size_t side = 0; side < question.sides; side++)
        question.word[side] =
            (side == PEER ? peer_fill : cf_fill)(question.kind[side], p, l, tiles[side].bytes, tile_len, first, second);
    return compare(&question);
}

/* No kind is told, so the library is asked once. */
uint64_t ask_judge(size_t p, size_t l, const uint8_t *scan, size_t scan_len, const uint8_t *restored, size_t restored_len, size_t first,
                   size_t second)
{
    struct question question;
    put(&question, "cf_judge, p %zu, l %zu, lines %zx and %zx hex", TOLD(p, l, first, second));
    struct lent *scans = for_reading(&question, "scan", scan, scan_len);
    struct lent *tiles = for_reading(&question, "restored tile", restored, restored_len);
    for (size_t side = 0; side < question.sides; side++)
        question.word[side] =
            (side == PEER ? peer_judge : cf_judge)(p, l, scans[side].bytes, scan_len, tiles[side].bytes, restored_len, first, second);
    return compare(&question);
}

uint64_t ask_inspect(size_t kind, size_t p, size_t l, const uint8_t *scan, size_t scan_len)
{
    struct question question;
    put_of_tile(&question, "cf_inspect, kind %zu, p %zu, l %zu", kind, p, l, 0, 0);
    struct lent *scans = for_reading(&question, "scan", scan, scan_len);
    for (size_t side = 0; side < question.sides; side++)
        question.word[side] = (side == PEER ? peer_inspect : cf_inspect)(question.kind[side], p, l, scans[side].bytes, scan_len);
    return compare(&question);
}

uint64_t ask_recover(size_t kind, size_t p, size_t l, const uint8_t *scan, size_t scan_len, uint8_t *text, size_t text_len)
{
    struct question question;
    put_of_tile(&question, "cf_recover, kind %zu, p %zu, l %zu", kind, p, l, 0, 0);
    struct lent *scans = for_reading(&question, "scan", scan, scan_len);
    struct lent *texts = for_writing(&question, "text", text, text_len);
    for (size_t side = 0; side < question.sides; side++)
        question.word[side] =
            (side == PEER ? peer_recover : cf_recover)(question.kind[side], p, l, scans[side].bytes, scan_len, texts[side].bytes, text_len);
    return compare(&question);
}

uint64_t ask_correct(size_t kind, size_t p, size_t l, uint8_t *tile, size_t tile_len, const uint8_t *sheet, size_t sheet_len,
                     uint64_t *count_or_offset)
{
    struct question question;
    put_of_tile(&question, "cf_correct, kind %zu, p %zu, l %zu", kind, p, l, 0, 0);
    struct lent *tiles = for_writing(&question, "tile", tile, tile_len);
    struct lent *sheets = for_reading(&question, "sheet", sheet, sheet_len);
    struct lent_number *numbers = for_a_number(&question, "count or offset");
    for (size_t side = 0; side < question.sides; side++)
        question.word[side] = (side == PEER ? peer_correct : cf_correct)(question.kind[side], p, l, tiles[side].bytes, tile_len,
                                                                         sheets[side].bytes, sheet_len, &numbers[side].value);
    *count_or_offset = numbers[PEER].value;
    return compare(&question);
}

uint64_t ask_next(const uint8_t *reel, size_t reel_len, size_t at, struct found *found)
{
    struct question question;
    put(&question, "cf_next, at %zu", TOLD(at));
    struct lent *reels = for_reading(&question, "reel", reel, reel_len);
    struct lent_number *kind = for_a_number(&question, "kind");
    struct lent_number *number = for_a_number(&question, "number");
    struct lent_number *p = for_a_number(&question, "p");
    struct lent_number *l = for_a_number(&question, "l");
    struct lent_number *first = for_a_number(&question, "first flag");
    struct lent_number *second = for_a_number(&question, "second flag");
    struct lent_number *offset = for_a_number(&question, "offset");
    for (size_t side = 0; side < question.sides; side++)
        question.word[side] =
            (side == PEER ? peer_next : cf_next)(reels[side].bytes, reel_len, at, &kind[side].value, &number[side].value, &p[side].value,
                                                 &l[side].value, &first[side].value, &second[side].value, &offset[side].value);
    found->kind = kind[PEER].value;
    found->number = number[PEER].value;
    found->p = p[PEER].value;
    found->l = l[PEER].value;
    found->first = first[PEER].value;
    found->second = second[PEER].value;
    found->offset = offset[PEER].value;
    return compare(&question);
}

/* The kinds have records of their own, so the library is asked once. */
uint64_t ask_lay(size_t which, size_t p, size_t l, uint32_t number, size_t first, size_t second, const uint8_t *tile, size_t tile_len,
                 uint8_t *room, size_t room_len, uint64_t *length)
{
    struct question question;
    put(&question, "cf_lay, which %zu, p %zu, l %zu, number %zu, flags %zx and %zx hex", TOLD(which, p, l, number, first, second));
    struct lent *tiles = for_reading(&question, "tile", tile, tile_len);
    struct lent *rooms = for_writing(&question, "room", room, room_len);
    struct lent_number *lengths = for_a_number(&question, "length");
    for (size_t side = 0; side < question.sides; side++)
        question.word[side] = (side == PEER ? peer_lay : cf_lay)(which, p, l, number, first, second, tiles[side].bytes, tile_len,
                                                                 rooms[side].bytes, room_len, &lengths[side].value);
    *length = lengths[PEER].value;
    return compare(&question);
}
