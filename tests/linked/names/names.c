/*
 * Inspects names by both profiles, strict and not, and compares statuses with those of rows that rows.py writes. No
 * call allocates.
 *
 * usage: names ROWS
 */
#include "../judging.h"
#include "../memory.h"
#include "../octets.h"

#include <stdio.h>
#include <stdlib.h>
#include <string.h>

#include "rpki.h"

static void row(unsigned line, char *text) {
    struct octets name = octets_spelt(text);
    unsigned of_rpki, of_router;
    if (sscanf(strchr(text, ' '), "%u %u", &of_rpki, &of_router) != 2) exit(2);
    count_allocations(0);
    judge(line, "rpki", (unsigned)rpki_name_inspect(name.at, name.size, RPKI_PROFILE_RPKI, true) == of_rpki);
    judge(line, "router", (unsigned)rpki_name_inspect(name.at, name.size, RPKI_PROFILE_ROUTER, true) == of_router);
    judge(line, "rpki, lax", rpki_name_inspect(name.at, name.size, RPKI_PROFILE_RPKI, false) == RPKI_OK);
    judge(line, "router, lax", rpki_name_inspect(name.at, name.size, RPKI_PROFILE_ROUTER, false) == RPKI_OK);
    judge(line, "allocates", took_none());
    free(name.at);
}

int main(int count, char **words) { return judge_rows(count, words, row); }
