/* A scan is inspected and recovered (SPEC 5.6 and 5.7), and what comes of it is held to what is known beforehand, or to the library's own
 * repair and read of a copy. */

#ifndef RECOVERED_H
#define RECOVERED_H

#include <stddef.h>
#include <stdint.h>

#include "peer_rules.h"

/* A scan and a text may be lent twice as long as the longest. */
enum { LONGEST = 2 * LARGEST_TILE };

/* What the two calls are told. Inspect has no use for the length of the text. */
struct asked {
    size_t kind, p, l, scan_len, text_len;
};

/* With lengths that are right. */
struct asked asked_of(size_t kind, size_t p, size_t l);

/* What repair has to answer (SPEC 5.3) where the scan is a good tile that was changed on one line alone, or not at all: clean, the cell,
 * the line, or 8 where a line across explains it too (doubt.h). For slopes from 2 to p-2. */
uint64_t known_of_line(size_t p, size_t l, size_t line, const uint8_t *good, const uint8_t *scan);

/* Asks all sides to inspect the scan, and holds the answer to the one that is known. What is inspected is told in words. */
void inspect(struct asked asked, const uint8_t *scan, uint64_t known, const char *what);

/* Asks all sides to recover it. Where the known answer is a refusal the text has to be as it was, and otherwise that of the good tile. */
void recover(struct asked asked, const uint8_t *scan, uint64_t known, const uint8_t *good, const char *what);

/* Both of these, with lengths that are right. */
void look_at(size_t kind, size_t p, size_t l, const uint8_t *scan, uint64_t known, const uint8_t *good, const char *what);

/* Without the peer, four calls: the library inspects and recovers the scan, and repairs a copy of it and reads that. The answers have to be
 * the same, the text that is recovered has to be the one that is read, and the scan as it was. */
void hold_to_repair(size_t kind, size_t p, size_t l, const uint8_t *scan);

/* A scan of which nothing is known: all sides are asked to inspect it and to recover it, both answers have to be the same, and the library
 * is held to its own repair and read. */
void look_at_any(size_t kind, size_t p, size_t l, const uint8_t *scan);

#endif
