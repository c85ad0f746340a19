/*
 * Reads the texts of the rows, which rows.py writes, as trust anchor locators, and compares statuses, lines, the URIs
 * and the key with theirs. What a call refuses leaves what it writes as it was; each allocation is refused in turn, and
 * no more is held, and no more taken of the stack, than rpki.h promises.
 *
 * usage: locators ROWS
 */
#include "../judging.h"
#include "../memory.h"
#include "../octets.h"
#include "../stack.h"

#include <stdio.h>
#include <stdlib.h>
#include <string.h>

#include "rpki.h"

enum { MOST = 1 << 12 };

/* What a call writes, and what it wrote with ample memory. */
static struct written {
    size_t count, line, written;
    uint8_t room[MOST];
} out, wanted;

/* The calls: the text, a URI of it, its key. */
enum call { WHOLE, URI, KEY };

static struct octets text;

static rpki_status make(enum call call, size_t number, size_t capacity) {
    memset(&out, FILL, sizeof out);
    switch (call) {
        case WHOLE: return rpki_locator(text.at, text.size, &out.count, &out.line);
        case URI: return rpki_locator_uri(text.at, text.size, number, out.room, capacity, &out.written);
        default: return rpki_locator_key(text.at, text.size, out.room, capacity, &out.written);
    }
}

/* The call that is asked, and what it returns. */
static struct {
    enum call call;
    size_t number, capacity;
    rpki_status status;
} asked;

static void make_asked(void) { asked.status = make(asked.call, asked.number, asked.capacity); }

/* The same, with the memory and the stack that rpki.h promises; and each allocation refused: then there is none, or the
 * call does without it. */
static rpki_status ask(unsigned line, enum call call, size_t number, size_t capacity) {
    bool freed, well = true;
    size_t many;
    rpki_status status, refused;
    asked.call = call;
    asked.number = number;
    asked.capacity = capacity;
    count_allocations(NONE_REFUSED);
    judge_stack(line, make_asked);
    many = allocations(&freed);
    status = asked.status;
    wanted = out;
    judge(line, "what was allocated is freed", freed);
    judge(line, "the memory that is promised", most_octets() <= 64 * text.size + 1024);
    for (size_t at = 0; at < many && at < 64; at++) {
        count_allocations(at);
        refused = make(call, number, capacity);
        allocations(&freed);
        if (refused == RPKI_OUT_OF_MEMORY) {
            well = well && freed && untouched(&out, sizeof out);
        } else {
            well = well && freed && refused == status && !memcmp(&out, &wanted, sizeof out);
        }
    }
    judge(line, "an allocation that is refused", well);
    out = wanted;
    return status;
}

/* Whether octets of a call were written, and no more; one place fewer is too small. */
static void judge_written(unsigned line, enum call call, size_t number, struct octets due) {
    judge_status(line, "what is written", ask(line, call, number, due.size), RPKI_OK);
    judge(line, "the octets",
          out.written == due.size && !memcmp(out.room, due.at, due.size) &&
              untouched(out.room + due.size, sizeof out.room - due.size));
    judge_status(line, "no room", ask(line, call, number, due.size - 1), RPKI_TOO_SMALL);
    judge(line, "no octets", out.written == due.size && untouched(out.room, sizeof out.room));
}

/* A locator: its key and its URIs are the words. */
static void judge_locator(unsigned line, const char *words) {
    struct octets key = octets_spelt(words);
    size_t count = 0;
    judge_written(line, KEY, 0, key);
    free(key.at);
    for (words = strchr(words, ' '); words; words = strchr(words + 1, ' ')) {
        struct octets uri = octets_spelt(words + 1);
        if (count < 8) judge_written(line, URI, count, uri);
        free(uri.at);
        count++;
    }
    judge_status(line, "no more URIs", ask(line, URI, count, MOST), RPKI_NO_ANSWER);
    judge(line, "nothing of them", untouched(&out, sizeof out));
    judge_status(line, "a number that no URI has", ask(line, URI, (size_t)-1, MOST), RPKI_NO_ANSWER);
    judge_status(line, "the locator", ask(line, WHOLE, 0, 0), RPKI_OK);
    judge(line, "how many URIs", out.count == count && untouched(&out.line, sizeof out.line));
}

/* Real and large sizes: so many empty lines after a locator, and a comment of so many octets before it. */
static void judge_sizes(struct octets locator) {
    static const size_t sizes[] = {0, 1, 127, 128, 255, 256, 65535, 65536, 1000000};
    for (size_t at = 0; at < sizeof sizes / sizeof *sizes; at++) {
        size_t size = sizes[at];
        text = new_octets(NULL, locator.size + size, '\n');
        memcpy(text.at, locator.at, locator.size);
        judge_status(1, "empty lines", ask(1, WHOLE, 0, 0), RPKI_OK);
        free(text.at);
        text = new_octets(NULL, size + 2 + locator.size, '#');
        text.at[size + 1] = '\n';
        memcpy(text.at + size + 2, locator.at, locator.size);
        judge_status(1, "a comment", ask(1, WHOLE, 0, 0), RPKI_OK);
        free(text.at);
    }
    text = locator;
}

static void row(unsigned line, char *digits) {
    char *words = strchr(digits, ' ') + 1;
    unsigned due = (unsigned)strtoul(words, &words, 10);
    text = octets_spelt(digits);
    if (line == 1) judge_sizes(text);
    if (due == RPKI_OK) {
        judge_locator(line, words + 1);
    } else {
        size_t named = strtoul(words, NULL, 10);
        judge_status(line, "no locator", ask(line, WHOLE, 0, 0), due);
        judge(line, "its line", out.line == named && untouched(&out.count, sizeof out.count));
        judge_status(line, "no URI", ask(line, URI, 0, MOST), due);
        judge(line, "no URI is written", untouched(&out, sizeof out));
        judge_status(line, "no key", ask(line, KEY, 0, MOST), due);
        judge(line, "no key is written", untouched(&out, sizeof out));
    }
    free(text.at);
}

int main(int count, char **words) { return judge_rows(count, words, row); }
