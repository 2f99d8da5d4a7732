/* The peer: twelve calls of counterfrost.h once more, under names of their own, with the same parameters and the same answers.
 *
 * What they do is written from docs/SPEC.md and docs/FORMATS.md alone; a comment "SPEC 4.3" names the section. Nothing is found in the way
 * in which the library finds it. That a tile is good is 2p equations, one for each diagonal, and the peer writes these down and solves them
 * by elimination (SPEC 5.8), which also tells whether they have one solution or several. It keeps no table: a size is found by trial
 * division, an allowed slope by marking its powers. */

#ifndef PEER_H
#define PEER_H

#include <stddef.h>
#include <stdint.h>

/* SPEC 2.3 and 2.4. The kind of a tile (SPEC 2.5) comes first, here and below, as SPEC 11.5 has it; to judge, none is told. */
uint64_t peer_house_slope(size_t p);
uint64_t peer_takes(size_t kind, size_t p, size_t l);

/* SPEC 5.1 to 5.7, and 11.3 for the lines that are named. */
uint64_t peer_write(size_t kind, size_t p, size_t l, const uint8_t *text, size_t text_len, uint8_t *tile, size_t tile_len);
uint64_t peer_read(size_t kind, size_t p, size_t l, const uint8_t *tile, size_t tile_len, uint8_t *text, size_t text_len);
uint64_t peer_repair(size_t kind, size_t p, size_t l, uint8_t *tile, size_t tile_len);
uint64_t peer_fill(size_t kind, size_t p, size_t l, uint8_t *tile, size_t tile_len, size_t first, size_t second);
uint64_t peer_judge(size_t p, size_t l, const uint8_t *scan, size_t scan_len, const uint8_t *restored, size_t restored_len, size_t first,
                    size_t second);
uint64_t peer_inspect(size_t kind, size_t p, size_t l, const uint8_t *scan, size_t scan_len);
uint64_t peer_recover(size_t kind, size_t p, size_t l, const uint8_t *scan, size_t scan_len, uint8_t *text, size_t text_len);

/* SPEC 6, and 11.2 for the number. */
uint64_t peer_correct(size_t kind, size_t p, size_t l, uint8_t *tile, size_t tile_len, const uint8_t *sheet, size_t sheet_len,
                      uint64_t *count_or_offset);

/* SPEC 7.2, and 11.2 for the numbers. */
uint64_t peer_next(const uint8_t *reel, size_t reel_len, size_t at, uint64_t *kind, uint64_t *number, uint64_t *p, uint64_t *l,
                   uint64_t *first, uint64_t *second, uint64_t *offset);

/* SPEC 7.7, 11.6 for which record it is, and 11.2 for the number. */
uint64_t peer_lay(size_t which, size_t p, size_t l, uint32_t number, size_t first, size_t second, const uint8_t *tile, size_t tile_len,
                  uint8_t *room, size_t room_len, uint64_t *length);

#endif
