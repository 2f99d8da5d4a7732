/* Judging, where the answer is known: see judged.h. */

#include "judged.h"

#include "ask.h"
#include "differences.h"

struct told told_of(size_t p, size_t l, size_t first, size_t second)
{
    struct told told = {p, l, tile_length(p), tile_length(p), first, second};
    return told;
}

void judge(struct told told, const uint8_t *scan, const uint8_t *restored, enum refusal known, const char *what)
{
    uint64_t said = ask_judge(told.p, told.l, scan, told.scan_len, restored, told.restored_len, told.first, told.second);
    hold(said == (known == ACCEPTED ? word_done() : word_refused(known)),
         "p %zu, l %zu, %zu and %zu bytes, lines %zx and %zx hex: %s, which is not answered by %d, word %llx", told.p, told.l,
         told.scan_len, told.restored_len, told.first, told.second, what, (int)known, (unsigned long long)said);
}
