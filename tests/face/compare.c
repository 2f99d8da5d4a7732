/* Calls the library and the peer on the same input, more than a million and a half times, and compares. Prints each difference, up to
 * twenty, and a closing line. The exit status is 0 only where nothing differed, and enough was asked. */

#include <stddef.h>

#include "cases.h"
#include "differences.h"

int main(void)
{
    static const struct {
        const char *subject;
        void (*cases)(void);
    } subjects[] = {
        {"the header's small functions", cases_header},
        {"the worked tiles of SPEC 10", cases_worked},
        {"sizes and slopes", cases_size},
        {"writing and reading", cases_tile},
        {"repair", cases_repair},
        {"fill", cases_fill},
        {"judging restored tiles", cases_judge},
        {"judging, and what it is told", cases_judge_faults},
        {"inspecting and recovering scans", cases_recover},
        {"inspecting and recovering, and what they are told", cases_recover_faults},
        {"old tiles that are doubtful", cases_doubtful},
        {"the margin", cases_margin},
        {"correction sheets", cases_sheet},
        {"reels", cases_reel},
        {"flags on reels", cases_flags},
        {"restoring by flags", cases_restore},
        {"laying records", cases_lay},
        {"edges, and two faults at once", cases_edges},
    };
    for (size_t k = 0; k < sizeof subjects / sizeof subjects[0]; k++) {
        begin_subject(subjects[k].subject);
        subjects[k].cases();
    }
    return close_comparison();
}
