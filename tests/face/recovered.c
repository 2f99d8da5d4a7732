/* Inspecting and recovering, where the outcome is known: see recovered.h. */

#include "recovered.h"

#include <string.h>

#include "ask.h"
#include "counterfrost.h"
#include "differences.h"
#include "doubt.h"
#include "made.h"

struct asked asked_of(size_t kind, size_t p, size_t l)
{
    struct asked asked = {kind, p, l, tile_length(p), text_length(p)};
    return asked;
}

uint64_t known_of_line(size_t p, size_t l, size_t line, const uint8_t *good, const uint8_t *scan)
{
    size_t count = 0, hurt = 0;
    for (size_t n = 0; n < p - 1; n++) {
        size_t place = place_on_line(p, line, n);
        if (good[place] != scan[place]) {
            hurt = place;
            count++;
        }
    }
    if (count == 0)
        return word_done();
    if (count == 1)
        return word_cell(hurt / (p - 1), hurt % (p - 1));
    if (is_doubtful(p, l, line, good, scan))
        return word_refused(DOUBTFUL);
    return is_row(line) ? word_row(line) : word_column(line - column_name(0));
}

void inspect(struct asked asked, const uint8_t *scan, uint64_t known, const char *what)
{
    uint64_t said = ask_inspect(asked.kind, asked.p, asked.l, scan, asked.scan_len);
    hold(said == known, "kind %zu, p %zu, l %zu, %zu bytes: %s, which is not inspected by word %llx, but %llx", asked.kind, asked.p,
         asked.l, asked.scan_len, what, (unsigned long long)known, (unsigned long long)said);
}

/* SPEC 3.2, byte by byte: whether a text is that of a tile. */
static int is_text_of(size_t p, const uint8_t *tile, const uint8_t *text)
{
    for (size_t k = 0; k < text_length(p); k++)
        if (text[k] != tile[k / (p - 3) * (p - 1) + k % (p - 3)])
            return 0;
    return 1;
}

void recover(struct asked asked, const uint8_t *scan, uint64_t known, const uint8_t *good, const char *what)
{
    static uint8_t text[LONGEST], before[LONGEST];
    mark_text(text, asked.text_len);
    memcpy(before, text, asked.text_len);
    uint64_t said = ask_recover(asked.kind, asked.p, asked.l, scan, asked.scan_len, text, asked.text_len);
    int is_right = cf_refusal(known) != 0 ? memcmp(text, before, asked.text_len) == 0 : is_text_of(asked.p, good, text);
    hold(said == known, "kind %zu, p %zu, l %zu, %zu and %zu bytes: %s, which is not recovered by word %llx, but %llx", asked.kind, asked.p,
         asked.l, asked.scan_len, asked.text_len, what, (unsigned long long)known, (unsigned long long)said);
    hold(is_right, "kind %zu, p %zu, l %zu, %zu and %zu bytes: %s, and another text is left, word %llx", asked.kind, asked.p, asked.l,
         asked.scan_len, asked.text_len, what, (unsigned long long)said);
}

void look_at(size_t kind, size_t p, size_t l, const uint8_t *scan, uint64_t known, const uint8_t *good, const char *what)
{
    inspect(asked_of(kind, p, l), scan, known, what);
    recover(asked_of(kind, p, l), scan, known, good, what);
}

/* Both texts are marked alike. A copy that repair refuses is refused by read too, so that both texts have to be left. */
void hold_to_repair(size_t kind, size_t p, size_t l, const uint8_t *scan)
{
    static uint8_t lent[LARGEST_TILE], copy[LARGEST_TILE], text[LARGEST_TEXT], text_read[LARGEST_TEXT];
    size_t scan_len = tile_length(p), text_len = text_length(p);
    memcpy(lent, scan, scan_len);
    memcpy(copy, scan, scan_len);
    mark_text(text, text_len);
    memcpy(text_read, text, text_len);
    count_call();
    uint64_t inspected = cf_inspect(kind, p, l, lent, scan_len);
    count_call();
    uint64_t recovered = cf_recover(kind, p, l, lent, scan_len, text, text_len);
    count_call();
    uint64_t repaired = cf_repair(kind, p, l, copy, scan_len);
    count_call();
    uint64_t was_read = cf_read(kind, p, l, copy, scan_len, text_read, text_len);
    hold(inspected == repaired && recovered == repaired, "kind %zu, p %zu, l %zu: inspect says %llx, recover %llx and repair %llx", kind, p,
         l, (unsigned long long)inspected, (unsigned long long)recovered, (unsigned long long)repaired);
    hold(was_read == (cf_refusal(repaired) != 0 ? word_refused(DAMAGED) : word_done()) && memcmp(text, text_read, text_len) == 0,
         "kind %zu, p %zu, l %zu: another text is recovered than is read after repair, words %llx and %llx", kind, p, l,
         (unsigned long long)recovered, (unsigned long long)was_read);
    hold(memcmp(lent, scan, scan_len) == 0, "kind %zu, p %zu, l %zu: the scan is touched, word %llx", kind, p, l,
         (unsigned long long)recovered);
}

void look_at_any(size_t kind, size_t p, size_t l, const uint8_t *scan)
{
    static uint8_t text[LARGEST_TEXT];
    uint64_t inspected = ask_inspect(kind, p, l, scan, tile_length(p));
    mark_text(text, text_length(p));
    uint64_t recovered = ask_recover(kind, p, l, scan, tile_length(p), text, text_length(p));
    hold(inspected == recovered, "kind %zu, p %zu, l %zu: a scan is inspected by word %llx, and recovered by %llx", kind, p, l,
         (unsigned long long)inspected, (unsigned long long)recovered);
    hold_to_repair(kind, p, l, scan);
}
