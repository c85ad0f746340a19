"""Writes a program in C that makes each call of rpki.h with NULL and the size or capacity 0, and with another pointer
and 0: status and all that is written have to be the same.

usage: nothing.py > FILE"""
import os
import re

HEADER = os.path.join(os.path.dirname(os.path.abspath(__file__)), "..", "..", "include", "rpki.h")
HEAD = """\
#include <stdio.h>
#include <string.h>

#include "rpki.h"

static unsigned char one[4096], other[4096];

static void fill(unsigned char *room) { memset(room, 0, sizeof one); }

static struct rpki_span *rest_of_none(const uint8_t *octets) {
    static struct rpki_span rest;
    rest.data = octets;
    rest.size = 0;
    return &rest;
}

"""
MAIN = """\
int main(void) {
    static const uint32_t nothing[1];
    unsigned passed = 0, failed = 0;
    size_t at;
    for (at = 0; at < sizeof calls / sizeof *calls; at++) {
        bool well;
        fill(one);
        fill(other);
        well = calls[at].make(NULL, NULL, one) == calls[at].make((const uint8_t *)nothing, (uint8_t *)nothing, other);
        well = well && !memcmp(one, other, sizeof one);
        passed += well;
        failed += !well;
        if (!well) printf("%s: NULL and 0 is not as another pointer and 0\\n", calls[at].name);
    }
    printf("%u passed, %u failed\\n", passed, failed);
    return failed != 0;
}
"""


def arguments(parameters):
    """What is passed: no octets, no room, and places of their own in a room for all else."""
    at = 0
    for number, text in enumerate(parameters):
        kind, name = re.fullmatch(r"(.*?)(\w+)(?:\[\d+\])?", text).groups()
        after = parameters[number + 1] if number + 1 < len(parameters) else ""
        if name.endswith(("size", "capacity")):
            yield "0"
        elif kind == "const uint8_t *" and after.startswith("size_t"):
            yield "octets"
        elif kind.startswith("const struct") and re.fullmatch(r"size_t \w*count", after):
            yield "(const void *)octets"
        elif name == "rest":
            yield "rest_of_none(octets)"
        elif "*" in kind and re.fullmatch(r"size_t \w*capacity", after):
            yield f"({kind.strip()})(void *)room_of_none"
        elif "*" in kind or "[" in text:
            yield f"(void *)(room + {at})"
            at += 1024
        else:
            yield "0"


def main():
    with open(HEADER, encoding="utf-8") as file:
        text = re.sub(r"/\*.*?\*/", "", file.read().split("/* ---- In this header alone")[0], flags=re.S)
    calls = []
    print(HEAD, end="")
    for name, told in re.findall(r"^rpki_status (rpki_\w+)\(([^)]*)\)", text, re.M):
        passed = list(arguments([" ".join(one.split()) for one in told.split(",")]))
        if any("octets" in one or "room_of_none" in one for one in passed):
            calls.append(name)
            takes = "const uint8_t *octets, uint8_t *room_of_none, unsigned char *room"
            print(f"static rpki_status make_{name}({takes}) {{\n    (void)octets, (void)room_of_none, (void)room;\n"
                  f"    return {name}({', '.join(passed)});\n}}\n")
    print("static const struct {\n    const char *name;\n"
          "    rpki_status (*make)(const uint8_t *octets, uint8_t *room_of_none, unsigned char *room);\n} calls[] = {")
    print("".join(f'    {{"{name}", make_{name}}},\n' for name in calls), end="")
    print("};\n")
    print(MAIN, end="")


main()
