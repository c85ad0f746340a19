/* The rows of rows.txt: calls, what they are given, and what they return. */
#ifndef ROWS_H
#define ROWS_H

#include "octets.h"

enum { MOST_COLUMNS = 16, MOST_TEXT = 1 << 16 };

/* A row: its columns are texts that end with a 0. */
struct row {
    unsigned line;
    size_t count;
    char *columns[MOST_COLUMNS];
};

/* A text that is made piece by piece. */
struct shown {
    size_t size;
    char text[MOST_TEXT];
};

void show(struct shown *shown, const char *format, ...);
void show_octets(struct shown *shown, const uint8_t *at, size_t size);

/* The octets that a column spells. */
struct octets octets_of(const char *column);

/* A column of a field, with its octets in hexadecimal and single spaces. */
void show_field(struct shown *shown, const char *column);

/* Calls `each` on every row of the file, and returns how many rows there are. */
unsigned for_each_row(const char *path, void (*each)(const struct row *row));

#endif
