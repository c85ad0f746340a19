/* Judges calls: counts which of them do what is expected, and says of the others what they do. */
#ifndef JUDGING_H
#define JUDGING_H

#include <stdbool.h>
#include <stddef.h>

/* Counts one more that passed, or failed; returns which. */
bool counted(bool well);

/* The same of a row, by its line; says what failed. */
void judge(unsigned line, const char *what, bool well);

/* Whether the status is the one that is wanted. */
void judge_status(unsigned line, const char *what, unsigned status, unsigned wanted);

/* Whether the words of a row are those that are told, of which `*` is any word. */
void judge_words(unsigned line, const char *what, const char *told, const char *words);

/* Prints how many passed and failed, and returns the status that the program ends with: 1 where any failed. */
int verdict(void);

/*
 * Calls `row` on each line, without its end, of the file that the program's one argument names, and ends as `verdict`
 * does; with 1 too where there is no line, and with 2 where the file can't be read, or a line is too long.
 */
int judge_rows(int count, char **words, void (*row)(unsigned line, char *text));

#endif
