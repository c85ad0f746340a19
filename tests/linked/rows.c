/* Reads rows.txt, which says how it is written. */
#include "rows.h"

#include <ctype.h>
#include <stdarg.h>
#include <stdio.h>
#include <stdlib.h>
#include <string.h>

enum { MOST_NAMES = 64, MOST_LINE = 4096 };

/* The names of the lines `let NAME = OCTETS`. */
static struct {
    char name[32];
    struct octets octets;
} names[MOST_NAMES];
static size_t names_count = 0;

static void stop(const char *why, const char *where) {
    fprintf(stderr, "rows: %s: %s\n", why, where);
    exit(2);
}

void show(struct shown *shown, const char *format, ...) {
    va_list words;
    int size;
    va_start(words, format);
    size = vsnprintf(shown->text + shown->size, MOST_TEXT - shown->size, format, words);
    va_end(words);
    if (size < 0 || (size_t)size >= MOST_TEXT - shown->size) stop("too long to show", format);
    shown->size += (size_t)size;
}

void show_octets(struct shown *shown, const uint8_t *at, size_t size) {
    size_t place;
    for (place = 0; place < size; place++) show(shown, "%02X", at[place]);
}

/* Octets that are put together, before they get memory of their own. */
struct pile {
    size_t size;
    uint8_t at[MOST_TEXT];
};

static void append(struct pile *to, const uint8_t *at, size_t size) {
    if (size > MOST_TEXT - to->size) stop("too many octets", "a row");
    memcpy(to->at + to->size, at, size);
    to->size += size;
}

static int digit(char c) {
    if (c >= '0' && c <= '9') return c - '0';
    if (c >= 'A' && c <= 'F') return c - 'A' + 10;
    return -1;
}

/* The octets of one token without N*; returns where it ends. */
static const char *token(const char *text, struct pile *found) {
    const char *end = text;
    size_t name;
    found->size = 0;
    if (*text == '"') {
        end = strchr(text + 1, '"');
        if (!end) stop("a text without an end", text);
        append(found, (const uint8_t *)text + 1, (size_t)(end - text - 1));
        return end + 1;
    }
    if (*text == '$') {
        while (*end && *end != ' ') end++;
        for (name = 0; name < names_count; name++) {
            size_t size = strlen(names[name].name);
            if (size == (size_t)(end - text - 1) && !memcmp(names[name].name, text + 1, size)) {
                append(found, names[name].octets.at, names[name].octets.size);
                return end;
            }
        }
        stop("a name that no line gives", text);
    }
    for (; digit(end[0]) >= 0 && digit(end[1]) >= 0; end += 2) {
        uint8_t octet = (uint8_t)(16 * digit(end[0]) + digit(end[1]));
        append(found, &octet, 1);
    }
    if (end == text || (*end && *end != ' ')) stop("no octets", text);
    return end;
}

struct octets octets_of(const char *column) {
    static struct pile all, found;
    all.size = 0;
    while (*column) {
        char *star;
        unsigned long times = strtoul(column, &star, 10);
        if (star == column || *star != '*') {
            times = 1;
        } else {
            column = star + 1;
        }
        column = token(column, &found);
        for (; times > 0; times--) append(&all, found.at, found.size);
        while (*column == ' ') column++;
    }
    return new_octets(all.at, all.size, 0);
}

void show_field(struct shown *shown, const char *column) {
    const char *rest = strpbrk(column, "@=");
    struct octets found;
    if (!rest) {
        show(shown, "%s", column);
        return;
    }
    rest += strcspn(rest, " ");
    found = octets_of(rest + strspn(rest, " "));
    show(shown, "%.*s ", (int)(rest - column), column);
    show_octets(shown, found.at, found.size);
    free(found.at);
}

/* Cuts off the spaces around a text. */
static char *trimmed(char *text) {
    char *end = text + strlen(text);
    while (isspace((unsigned char)*text)) text++;
    while (end > text && isspace((unsigned char)end[-1])) end--;
    *end = 0;
    return text;
}

static void keep_name(char *line) {
    char *equals = strchr(line, '=');
    if (!equals || names_count == MOST_NAMES) stop("no name", line);
    *equals = 0;
    line = trimmed(line);
    if (strlen(line) >= sizeof names[0].name) stop("too long a name", line);
    strcpy(names[names_count].name, line);
    names[names_count].octets = octets_of(trimmed(equals + 1));
    names_count++;
}

/* Splits a row at its bars and hands it to `each`; keeps a name. Returns whether it was a row. */
static bool take(char *text, unsigned line, void (*each)(const struct row *row)) {
    struct row row;
    if (!*text) return false;
    if (!strncmp(text, "let ", 4)) {
        keep_name(text + 4);
        return false;
    }
    row.line = line;
    row.count = 0;
    while (text) {
        char *bar = strchr(text, '|');
        if (bar) *bar = 0;
        if (row.count == MOST_COLUMNS) stop("too many columns", text);
        row.columns[row.count++] = trimmed(text);
        text = bar ? bar + 1 : NULL;
    }
    each(&row);
    return true;
}

unsigned for_each_row(const char *path, void (*each)(const struct row *row)) {
    char buffer[MOST_LINE], pending[MOST_LINE] = "";
    unsigned line = 0, first = 0, rows = 0;
    FILE *file = fopen(path, "r");
    if (!file) stop("cannot be read", path);
    while (fgets(buffer, sizeof buffer, file)) {
        char *text = trimmed(buffer);
        line++;
        if (*text == '#') continue;
        if (*text != '|') {
            rows += take(pending, first, each);
            *pending = 0;
            first = line;
        }
        if (strlen(pending) + strlen(text) >= MOST_LINE) stop("too long a row", text);
        strcat(pending, text);
    }
    rows += take(pending, first, each);
    fclose(file);
    while (names_count > 0) free(names[--names_count].octets.at);
    return rows;
}
