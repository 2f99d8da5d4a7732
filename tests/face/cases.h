/* The cases, by subject. Each function asks its questions of all sides, always the same ones. */

#ifndef CASES_H
#define CASES_H

void cases_header(void);
void cases_worked(void);
void cases_size(void);
void cases_tile(void);
void cases_repair(void);
void cases_fill(void);
void cases_judge(void);
void cases_judge_faults(void);
void cases_recover(void);
void cases_recover_faults(void);
void cases_doubtful(void);
void cases_margin(void);
void cases_sheet(void);
void cases_reel(void);
void cases_flags(void);
void cases_restore(void);
void cases_lay(void);
void cases_edges(void);

#endif
