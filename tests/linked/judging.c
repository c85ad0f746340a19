#include "judging.h"
#include "spans.h"

#include <stdio.h>
#include <stdlib.h>
#include <string.h>

enum { MOST_LINE = 3 << 18 };

static unsigned passed = 0, failed = 0;

bool counted(bool well) {
    passed += well;
    failed += !well;
    return well;
}

void judge(unsigned line, const char *what, bool well) {
    if (!counted(well)) printf("line %u: %s\n", line, what);
}

void judge_status(unsigned line, const char *what, unsigned status, unsigned wanted) {
    if (status != wanted) printf("status %u, not %u\n", status, wanted);
    judge(line, what, status == wanted);
}

void judge_words(unsigned line, const char *what, const char *told, const char *words) {
    bool well = is_told(told, words);
    if (!well) printf("%s\nnot %s\n", told, words);
    judge(line, what, well);
}

int verdict(void) {
    printf("%u passed, %u failed\n", passed, failed);
    return failed != 0;
}

int judge_rows(int count, char **words, void (*row)(unsigned line, char *text)) {
    static char text[MOST_LINE];
    unsigned line = 0;
    FILE *file = count == 2 ? fopen(words[1], "r") : NULL;
    if (!file) return 2;
    while (fgets(text, sizeof text, file)) {
        size_t size = strcspn(text, "\n");
        if (!text[size] && !feof(file)) {
            fprintf(stderr, "line %u is too long\n", line + 1);
            exit(2);
        }
        text[size] = 0;
        row(++line, text);
    }
    fclose(file);
    return verdict() || line == 0;
}
