/* Counts what was compared and what differed, and prints each difference, up to twenty. */

#ifndef DIFFERENCES_H
#define DIFFERENCES_H

/* The calls that are compared from here on belong to this subject, which a difference names. */
void begin_subject(const char *subject);

/* One call more was compared. */
void count_call(void);

/* Begins a difference: says its number, the subject and the number of the call. What follows is printed with detail. */
void begin_difference(void);
void detail(const char *format, ...);

/* Ends a difference. After the twentieth it closes the comparison and ends the program. */
void end_difference(void);

/* Holds something beside the comparison to what SPEC or the header says of it; where it does not hold, that is a difference. */
void hold(int holds, const char *format, ...);

/* Prints the closing line, and gives the exit status. */
int close_comparison(void);

#endif
