/*
 * Makes the calls of include/rpki.h on resources, and compares what they return and write with the rows that rows.py
 * writes. Readers are given arrays of each capacity from 0 to one more than is needed, writers of texts buffers. What a
 * call refuses leaves what it may write as it was, and what is after what is written stays. No call allocates.
 *
 * usage: resources ROWS
 */
#include "../judging.h"
#include "../memory.h"
#include "../octets.h"
#include "../spans.h"

#include <stdio.h>
#include <stdlib.h>
#include <string.h>

#include "rpki.h"

enum { MOST_COLUMNS = 256 };

/* An entry of either extension, in the words of a row. */
union entry {
    struct rpki_ip_block ip;
    struct rpki_as_block as;
};

static rpki_status text_of(bool is_ip, const union entry *entry, uint8_t *out, size_t capacity, size_t *written) {
    return is_ip ? rpki_ip_block_text(&entry->ip, out, capacity, written)
                 : rpki_as_block_text(&entry->as, out, capacity, written);
}

/* Writes the text of a block to buffers of each capacity up to one more than is wanted, and compares it. */
static void texts(unsigned line, bool is_ip, const union entry *entry, rpki_status wanted, const char *text) {
    size_t size = wanted == RPKI_OK ? strlen(text) : 0, capacity;
    bool well = true;
    for (capacity = 0; capacity <= size + 1; capacity++) {
        struct octets out = new_octets(NULL, capacity, FILL);
        size_t written = 7777;
        rpki_status status;
        count_allocations(0);
        status = text_of(is_ip, entry, out.at, capacity, &written);
        well = took_none() && well;
        if (wanted != RPKI_OK) {
            well = well && status == wanted && written == 7777 && untouched(out.at, capacity);
        } else if (capacity < size) {
            well = well && status == RPKI_TOO_SMALL && written == size && untouched(out.at, capacity);
        } else {
            well = well && status == RPKI_OK && written == size && !memcmp(out.at, text, size) &&
                   untouched(out.at + size, capacity - size);
        }
        free(out.at);
    }
    judge(line, "a text", well);
}

/* An entry in the words of a row, without its text. */
static void tell(bool is_ip, const union entry *entry, char *text) {
    if (is_ip) {
        text += sprintf(text, "%u:", entry->ip.family);
        text = tell_octets(text, entry->ip.low, 16);
        *text++ = ':';
        text = tell_octets(text, entry->ip.high, 16);
        sprintf(text, ":%d:", entry->ip.is_inherited);
    } else {
        sprintf(text, "%lu:%lu:%d:", (unsigned long)entry->as.low, (unsigned long)entry->as.high,
                entry->as.is_inherited);
    }
}

/* Compares an entry with a column, whose last part is its text. */
static void compare(unsigned line, bool is_ip, const union entry *entry, const char *column) {
    char told[128];
    tell(is_ip, entry, told);
    if (strncmp(told, column, strlen(told))) {
        printf("%s, not %s\n", told, column);
        judge(line, "an entry", false);
        return;
    }
    texts(line, is_ip, entry, RPKI_OK, column + strlen(told));
}

/* Reads contents with room for so many entries, of which there are so many. */
static void read_to(unsigned line, bool is_ip, const uint8_t *octets, size_t size, rpki_status wanted, char **columns,
                    size_t entries, size_t capacity) {
    size_t each = is_ip ? sizeof(struct rpki_ip_block) : sizeof(struct rpki_as_block), count = 7777, number;
    struct octets array = new_octets(NULL, capacity * each, FILL);
    rpki_status status;
    bool well;
    count_allocations(0);
    status = is_ip ? rpki_ip_blocks(octets, size, (struct rpki_ip_block *)(void *)array.at, capacity, &count)
                   : rpki_as_blocks(octets, size, (struct rpki_as_block *)(void *)array.at, capacity, &count);
    well = took_none();
    judge(line, "allocates", well);
    if (wanted == RPKI_OK && capacity < entries) wanted = RPKI_TOO_SMALL;
    judge_status(line, "the status", status, wanted);
    judge(line, "the count", count == (wanted == RPKI_OK || wanted == RPKI_TOO_SMALL ? entries : 7777));
    if (wanted != RPKI_OK || status != RPKI_OK) {
        judge(line, "writes what it refuses", untouched(array.at, array.size));
    } else {
        judge(line, "writes behind the entries", untouched(array.at + entries * each, (capacity - entries) * each));
        for (number = 0; number < entries && capacity == entries; number++) {
            union entry entry;
            memcpy(&entry, array.at + number * each, each);
            compare(line, is_ip, &entry, columns[number]);
        }
    }
    free(array.at);
}

/* A row of one contents. */
static void reads(unsigned line, bool is_ip, char **columns, size_t count) {
    size_t entries = count - 3, capacity;
    struct octets given = octets_spelt(columns[1]);
    rpki_status wanted = (rpki_status)strtoul(columns[2], NULL, 10);
    for (capacity = 0; capacity <= entries + 1; capacity++) {
        read_to(line, is_ip, given.at, given.size, wanted, columns + 3, entries, capacity);
    }
    free(given.at);
}

/* A row of two contents. */
static void compares(unsigned line, bool is_ip, char **columns) {
    struct octets outer = octets_spelt(columns[1]), inner = octets_spelt(columns[2]);
    rpki_status wanted = (rpki_status)strtoul(columns[3], NULL, 10), status;
    bool before, answer;
    int time;
    for (time = 0; time < 2; time++) {
        before = answer = time == 1;
        count_allocations(0);
        status = is_ip ? rpki_ip_blocks_encompass(outer.at, outer.size, inner.at, inner.size, &answer)
                       : rpki_as_blocks_encompass(outer.at, outer.size, inner.at, inner.size, &answer);
        judge(line, "allocates", took_none());
        judge_status(line, "the status", status, wanted);
        judge(line, "the answer", answer == (wanted == RPKI_OK ? columns[4][0] == '1' : before));
    }
    free(outer.at);
    free(inner.at);
}

/* A row of the text of a block that no contents need have. */
static void writes(unsigned line, bool is_ip, char **columns) {
    union entry entry;
    memset(&entry, 0, sizeof entry);
    if (is_ip) {
        entry.ip.family = (uint8_t)strtoul(columns[1], NULL, 10);
        hexadecimal(columns[2], entry.ip.low, sizeof entry.ip.low);
        hexadecimal(columns[3], entry.ip.high, sizeof entry.ip.high);
        entry.ip.is_inherited = columns[4][0] == '1';
        columns += 2;
    } else {
        entry.as.low = (uint32_t)strtoul(columns[1], NULL, 10);
        entry.as.high = (uint32_t)strtoul(columns[2], NULL, 10);
        entry.as.is_inherited = columns[3][0] == '1';
        columns += 1;
    }
    texts(line, is_ip, &entry, (rpki_status)strtoul(columns[3], NULL, 10), columns[4]);
}

static void row(unsigned line, char *text) {
    char *columns[MOST_COLUMNS], *column;
    size_t count = 0;
    bool is_ip = text[0] == 'i';
    for (column = strtok(text, " "); column && count < MOST_COLUMNS; column = strtok(NULL, " ")) {
        columns[count++] = column;
    }
    if (count < 3 || column) exit(2);
    if (columns[0][2] == 'e') {
        compares(line, is_ip, columns);
    } else if (columns[0][2] == 't') {
        writes(line, is_ip, columns);
    } else {
        reads(line, is_ip, columns, count);
    }
}

int main(int count, char **words) { return judge_rows(count, words, row); }
