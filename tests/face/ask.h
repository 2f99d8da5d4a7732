/* Asks the library and the peer the same, and compares all that comes back: the answer's word, each lent byte and the guards around it,
 * and the numbers that are answered through pointers. Where both kinds of tiles are to be answered alike (SPEC 2.5), the library is asked
 * twice, as of a new tile and as of an old one, and both are compared with the peer.
 *
 * The functions take what the calls take. What the caller lends for writing holds afterwards what the peer has made of it, and the
 * function gives the peer's answer; so one question can go on where the last one ended. */

#ifndef ASK_H
#define ASK_H

#include <stddef.h>
#include <stdint.h>

/* What a reel's call answers through pointers. */
struct found {
    uint64_t kind;
    uint64_t number;
    uint64_t p;
    uint64_t l;
    uint64_t first;
    uint64_t second;
    uint64_t offset;
};

uint64_t ask_house_slope(size_t p);
uint64_t ask_takes(size_t kind, size_t p, size_t l);
uint64_t ask_write(size_t kind, size_t p, size_t l, const uint8_t *text, size_t text_len, uint8_t *tile, size_t tile_len);
uint64_t ask_read(size_t kind, size_t p, size_t l, const uint8_t *tile, size_t tile_len, uint8_t *text, size_t text_len);
uint64_t ask_repair(size_t kind, size_t p, size_t l, uint8_t *tile, size_t tile_len);
uint64_t ask_fill(size_t kind, size_t p, size_t l, uint8_t *tile, size_t tile_len, size_t first, size_t second);
uint64_t ask_judge(size_t p, size_t l, const uint8_t *scan, size_t scan_len, const uint8_t *restored, size_t restored_len, size_t first,
                   size_t second);
uint64_t ask_inspect(size_t kind, size_t p, size_t l, const uint8_t *scan, size_t scan_len);

/* What the text holds before has to show whether a refused call leaves it: it should be marked (made.h), or hold some other byte that no
 * call would put there. */
uint64_t ask_recover(size_t kind, size_t p, size_t l, const uint8_t *scan, size_t scan_len, uint8_t *text, size_t text_len);

uint64_t ask_correct(size_t kind, size_t p, size_t l, uint8_t *tile, size_t tile_len, const uint8_t *sheet, size_t sheet_len,
                     uint64_t *count_or_offset);
uint64_t ask_next(const uint8_t *reel, size_t reel_len, size_t at, struct found *found);

/* What the room holds before has to show whether a refused call leaves it, and any call what lies behind the record. */
uint64_t ask_lay(size_t which, size_t p, size_t l, uint32_t number, size_t first, size_t second, const uint8_t *tile, size_t tile_len,
                 uint8_t *room, size_t room_len, uint64_t *length);

#endif
