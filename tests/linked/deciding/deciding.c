/*
 * Makes the calls that decide whether something is valid, and compares statuses, blocks and moments with those of rows
 * that rows.py writes. What a call refuses leaves what it writes as it was; the calls that take no memory ask for none,
 * and of the others each allocation is refused in turn.
 *
 * usage: deciding ROWS
 */
#include "../judging.h"
#include "../memory.h"
#include "../octets.h"
#include "../stack.h"

#include <stdio.h>
#include <stdlib.h>
#include <string.h>

#include "rpki.h"

enum { MOST_BLOCKS = 16, UNWRITTEN = 77 };

/* The row's. */
static unsigned line;

/* The next word of the row, or NULL. */
static char *next_word(char **rest) {
    char *word = *rest + strspn(*rest, " "), *end = word + strcspn(word, " ");
    if (*word == 0) return NULL;
    *rest = *end ? end + 1 : end;
    *end = 0;
    return word;
}

static long long next_number(char **rest) { return strtoll(next_word(rest), NULL, 10); }

static size_t ip_blocks_of(char **rest, struct rpki_ip_block *blocks) {
    size_t count = 0;
    char *word;
    memset(blocks, 0, MOST_BLOCKS * sizeof *blocks);
    while ((word = next_word(rest)) != NULL && *word != '/') {
        struct rpki_ip_block *block = &blocks[count++];
        size_t size = (strlen(word) - 3) / 4, read;
        block->family = (uint8_t)(word[0] - '0');
        block->is_inherited = word[2] == 'i';
        if (block->is_inherited) continue;
        read = hexadecimal(word + 2, block->low, sizeof block->low);
        read += hexadecimal(word + 3 + 2 * size, block->high, sizeof block->high);
        if (read != 2 * size) exit(2);
    }
    return count;
}

static size_t as_blocks_of(char **rest, struct rpki_as_block *blocks) {
    size_t count = 0;
    char *word;
    memset(blocks, 0, MOST_BLOCKS * sizeof *blocks);
    while ((word = next_word(rest)) != NULL && *word != '/') {
        struct rpki_as_block *block = &blocks[count++];
        block->is_inherited = word[0] == 'i';
        if (block->is_inherited) continue;
        block->low = (uint32_t)strtoul(word, &word, 10);
        block->high = (uint32_t)strtoul(word + 1, NULL, 10);
    }
    return count;
}

static bool is_same_ip(const struct rpki_ip_block *one, const struct rpki_ip_block *other) {
    return one->family == other->family && one->is_inherited == other->is_inherited &&
           !memcmp(one->low, other->low, 16) && !memcmp(one->high, other->high, 16);
}

static bool is_same_as(const struct rpki_as_block *one, const struct rpki_as_block *other) {
    return one->low == other->low && one->high == other->high && one->is_inherited == other->is_inherited;
}

/* What is asked of a row, by its first word. */
struct question {
    char kind;
    struct octets octets, others;
    size_t count;
    bool strict;
    struct rpki_ip_block ip[MOST_BLOCKS];
    struct rpki_as_block as[MOST_BLOCKS];
};

/* What is answered. */
struct answer {
    rpki_status status;
    size_t count;
    struct rpki_ip_block ip[MOST_BLOCKS];
    struct rpki_as_block as[MOST_BLOCKS];
};

/* Makes a call that may take memory; of this capacity, where it writes blocks. */
static void ask(const struct question *q, size_t capacity, struct answer *out) {
    memset(out, FILL, sizeof *out);
    out->count = UNWRITTEN;
    switch (q->kind) {
        case 'i':
            out->status = rpki_ip_settle(q->octets.at, q->octets.size, q->ip, q->count, out->ip, capacity, &out->count);
            break;
        case 'a':
            out->status = rpki_as_settle(q->octets.at, q->octets.size, q->as, q->count, out->as, capacity, &out->count);
            break;
        default: out->status = rpki_roa_is_within(q->octets.at, q->octets.size, q->strict, q->ip, q->count); break;
    }
}

static bool is_unwritten(const struct answer *answer) {
    return answer->count == UNWRITTEN && untouched(answer->ip, sizeof answer->ip) &&
           untouched(answer->as, sizeof answer->as);
}

/* The same call on a stack of its own. */
static struct {
    const struct question *q;
    size_t capacity;
    struct answer *out;
} question;

static void ask_there(void) { ask(question.q, question.capacity, question.out); }

/* Refuses each allocation of the call in turn: then allocation fails, nothing is written, and all is freed. */
static void refuse_each(const struct question *q, size_t capacity, size_t many) {
    struct answer answer;
    size_t at;
    bool freed = true, well = true;
    for (at = 0; at < many; at++) {
        count_allocations(at);
        ask(q, capacity, &answer);
        well = well && answer.status == RPKI_OUT_OF_MEMORY && is_unwritten(&answer);
        allocations(&freed);
        well = well && freed;
    }
    count_allocations(NONE_REFUSED);
    judge(line, "an allocation that is refused", well);
}

/* A call that may take memory, and what it has to answer. */
static void ask_well(const struct question *q, size_t capacity, rpki_status status, size_t count, char **rest) {
    struct rpki_ip_block ip[MOST_BLOCKS];
    struct rpki_as_block as[MOST_BLOCKS];
    struct answer answer;
    size_t wanted, at, many;
    bool well, freed;
    question.q = q;
    question.capacity = capacity;
    question.out = &answer;
    count_allocations(NONE_REFUSED);
    judge_stack(line, ask_there);
    many = allocations(&freed);
    judge(line, "the status", answer.status == status);
    judge(line, "what was allocated is freed", freed);
    judge(line, "the memory that is promised", most_octets() <= 384 * (q->count + MOST_BLOCKS) + 1024);
    if (q->kind == 'r') {
        refuse_each(q, capacity, many);
        return;
    }
    judge(line, "the count", answer.count == count);
    wanted = q->kind == 'i' ? ip_blocks_of(rest, ip) : as_blocks_of(rest, as);
    well = wanted == (status == RPKI_OK ? count : 0);
    for (at = 0; at < wanted; at++) {
        well = well && (q->kind == 'i' ? is_same_ip(&ip[at], &answer.ip[at]) : is_same_as(&as[at], &answer.as[at]));
    }
    if (q->kind == 'i') well = well && untouched(answer.ip + wanted, sizeof answer.ip - wanted * sizeof *answer.ip);
    if (q->kind == 'a') well = well && untouched(answer.as + wanted, sizeof answer.as - wanted * sizeof *answer.as);
    judge(line, "the blocks", well);
    refuse_each(q, capacity, many);
}

static void settle(struct question *q, char *rest) {
    rpki_status status = (rpki_status)next_number(&rest);
    const char *counted = next_word(&rest);
    size_t count = *counted == '-' ? UNWRITTEN : strtoul(counted, NULL, 10);
    size_t capacity = status == RPKI_TOO_SMALL ? count - 1 : status == RPKI_OK ? count : MOST_BLOCKS;
    q->count = q->kind == 'i' ? ip_blocks_of(&rest, q->ip) : as_blocks_of(&rest, q->as);
    ask_well(q, capacity, status, count, &rest);
}

static void ask_for_moment(long long seconds, char *rest) {
    struct rpki_moment moment;
    rpki_status status = (rpki_status)next_number(&rest);
    memset(&moment, FILL, sizeof moment);
    judge(line, "the status", rpki_time_of_seconds(seconds, &moment) == status);
    if (status != RPKI_OK) {
        judge(line, "the moment", untouched(&moment, sizeof moment));
        return;
    }
    judge(line, "the seconds", moment.seconds == seconds);
    judge(line, "the date",
          moment.year == next_number(&rest) && moment.month == next_number(&rest) && moment.day == next_number(&rest));
    judge(line, "the time",
          moment.hour == next_number(&rest) && moment.minute == next_number(&rest) &&
              moment.second == next_number(&rest));
}

static rpki_status ask_of_list(const struct question *q, long long seconds) {
    struct rpki_moment moment = {0, 0, 13, 1, 0, 0, 0};
    if (rpki_time_of_seconds(seconds, &moment) == RPKI_OK) moment.seconds = 5;
    return rpki_crl_issued_by(q->octets.at, q->octets.size, q->others.at, q->others.size, &moment);
}

/* What is asked of a call that takes no memory, and what it returns. */
static struct {
    const char *word;
    const struct question *q;
    long long seconds;
    unsigned found;
} asked;

static void ask_one(void) {
    const struct question *q = asked.q;
    if (!strcmp(asked.word, "anchor"))
        asked.found = rpki_anchor_verify(q->octets.at, q->octets.size, q->others.at, q->others.size);
    if (!strcmp(asked.word, "signed"))
        asked.found = rpki_certificate_signed_by(q->octets.at, q->octets.size, q->others.at, q->others.size);
    if (!strcmp(asked.word, "list")) asked.found = ask_of_list(q, asked.seconds);
    if (!strcmp(asked.word, "object")) asked.found = rpki_object_verify(q->octets.at, q->octets.size, q->strict);
    if (!strcmp(asked.word, "aspa")) asked.found = rpki_aspa_is_within(q->octets.at, q->octets.size, q->as, q->count);
    if (!strcmp(asked.word, "manifest")) asked.found = rpki_manifest_inherits(q->octets.at, q->octets.size);
    if (!strcmp(asked.word, "roasigner")) asked.found = rpki_roa_signer(q->octets.at, q->octets.size);
    if (!strcmp(asked.word, "aspasigner")) asked.found = rpki_aspa_signer(q->octets.at, q->octets.size);
    if (!strcmp(asked.word, "file")) asked.found = rpki_manifest_file_is(q->octets.at, q->others.at, q->others.size);
    if (!strcmp(asked.word, "type")) asked.found = rpki_content_type(q->octets.at, q->octets.size);
}

/* The row of these words, of which the first is a call that takes no memory. */
static void ask_without_memory(const char *word, struct question *q, char *rest) {
    long long status = 0, seconds = 0;
    unsigned found = 0;
    if (!strcmp(word, "list")) seconds = next_number(&rest);
    if (!strcmp(word, "object")) q->strict = next_number(&rest) != 0;
    status = next_number(&rest);
    if (!strcmp(word, "aspa")) q->count = as_blocks_of(&rest, q->as);
    count_allocations(0);
    asked.word = word;
    asked.q = q;
    asked.seconds = seconds;
    judge_stack(line, ask_one);
    found = asked.found;
    judge(line, "memory", took_none());
    if (found != status) printf("found %u, wanted %lld: ", found, status);
    judge(line, word, found == status);
}

/* Whether no more memory was held at once than rpki.h says of so many blocks and prefixes, and it is freed. */
static bool took_little(size_t many) {
    bool freed;
    return allocations(&freed) > 0 && freed && most_octets() <= 384 * many + 1024;
}

static void within(char *rest) {
    struct octets content = octets_spelt(next_word(&rest));
    size_t count = (size_t)next_number(&rest);
    struct rpki_ip_block blocks[2] = {{{10}, {10, 255, 255, 255}, RPKI_IPV4, false}, {{12}, {12}, RPKI_IPV4, false}};
    count_allocations(NONE_REFUSED);
    judge_status(line, "the status", rpki_roa_is_within(content.at, content.size, true, blocks, 2), RPKI_OK);
    judge(line, "the memory of rpki_roa_is_within", took_little(count + 2));
    free(content.at);
}

static void settled(char *rest) {
    struct octets cert = octets_spelt(next_word(&rest));
    size_t count = (size_t)next_number(&rest), each, found = 0;
    struct rpki_ip_block *ips = calloc(count, sizeof *ips), own;
    struct rpki_as_block *numbers = calloc(count, sizeof *numbers), number;
    if (ips == NULL || numbers == NULL) exit(2);
    for (each = 0; each < count; each++) {
        ips[each].family = RPKI_IPV4;
        ips[each].low[0] = ips[each].high[0] = 10;
        ips[each].low[1] = ips[each].high[1] = (uint8_t)(each >> 8);
        ips[each].low[2] = ips[each].high[2] = (uint8_t)each;
        numbers[each].low = numbers[each].high = 2 * (uint32_t)each + 2;
    }
    count_allocations(NONE_REFUSED);
    judge_status(line, "the status", rpki_ip_settle(cert.at, cert.size, ips, count, &own, 1, &found), RPKI_OK);
    judge(line, "the memory of rpki_ip_settle", took_little(count + 2) && found == 1);
    count_allocations(NONE_REFUSED);
    judge_status(line, "the status", rpki_as_settle(cert.at, cert.size, numbers, count, &number, 1, &found), RPKI_OK);
    judge(line, "the memory of rpki_as_settle", took_little(count + 2) && found == 1 && number.low == 2);
    free(cert.at);
    free(ips);
    free(numbers);
}

static void row(unsigned number, char *rest) {
    static struct question q;
    const char *word = next_word(&rest);
    line = number;
    if (!strcmp(word, "seconds")) {
        long long seconds = next_number(&rest);
        ask_for_moment(seconds, rest);
        return;
    }
    if (!strcmp(word, "section")) {
        long long status = next_number(&rest);
        judge(line, word, !strncmp(rest, rpki_rule_text((rpki_status)status), strlen(rest)));
        return;
    }
    if (!strcmp(word, "within") || !strcmp(word, "settled")) {
        (*word == 'w' ? within : settled)(rest);
        return;
    }
    q.kind = word[0] == 'a' && word[1] == 's' && word[2] == 0 ? 'a' : word[0] == 'a' ? 'p' : word[0];
    q.octets = octets_spelt(next_word(&rest));
    q.others.at = NULL;
    if (!strcmp(word, "signed") || !strcmp(word, "list") || !strcmp(word, "file") || !strcmp(word, "anchor")) {
        q.others = octets_spelt(next_word(&rest));
    }
    if (q.kind == 'i' || q.kind == 'a') {
        settle(&q, rest);
    } else if (!strcmp(word, "roa")) {
        rpki_status status;
        q.strict = next_number(&rest) != 0;
        status = (rpki_status)next_number(&rest);
        q.count = ip_blocks_of(&rest, q.ip);
        ask_well(&q, 0, status, 0, &rest);
    } else {
        ask_without_memory(word, &q, rest);
    }
    free(q.octets.at);
    free(q.others.at);
}

int main(int count, char **words) { return judge_rows(count, words, row); }
