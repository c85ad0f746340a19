"""What a program that was compiled with include/rpki.h relies on, in lines: calls, constants, sizes, members and where
they are. Within a major number lines are added to abi.txt, and none changes or goes.

usage: abi.py        (prints the lines; CC, or else cc, compiles a program that asks for sizes and values)"""
import os
import re
import subprocess
import tempfile

TOP = os.path.join(os.path.dirname(os.path.abspath(__file__)), "..", "..")
INCLUDE = os.path.join(TOP, "include")


def asked(text):
    """The lines, each as what a program prints: a text, and an expression for each number in it."""
    for result, name, parameters in re.findall(r"^(\w+) (rpki_\w+)\(([^)]*)\)(?:\s+RPKI_CHECKED)?;", text, re.M):
        yield f"call {name}: {result} of {' '.join(parameters.split())}", []
    yield "type rpki_status: %llu", ["sizeof(rpki_status)"]
    for body in re.findall(r"enum [^{]*\{(.*?)\}", text, re.S):
        for name in re.findall(r"RPKI_\w+", body):
            yield f"constant {name}: %llu", [name]
    for name in re.findall(r"^#define (RPKI_\w+) ", text, re.M):
        if not name.startswith(("RPKI_VERSION", "RPKI_CHECKED", "RPKI_RENAMED")):
            yield f"constant {name}: %llu", [name]
    for name, body in re.findall(r"^struct (rpki_\w+) \{(.*?)^\};", text, re.S | re.M):
        yield f"struct {name}: %llu octets", [f"sizeof(struct {name})"]
        for kind, member, many in re.findall(r"^\s*([\w ]+?\*?) ?\b(\w+)((?:\[\w+\])?);", body, re.M):
            where, size = f"offsetof(struct {name}, {member})", f"sizeof(((struct {name} *)0)->{member})"
            yield f"member {name}.{member}: {kind}{many} of %llu at %llu", [size, where]


def main():
    with open(os.path.join(INCLUDE, "rpki.h")) as file:
        text = re.sub(r"/\*.*?\*/", "", file.read(), flags=re.S)
    calls = []
    for line, numbers in asked(text):
        arguments = "".join(f", (unsigned long long)({number})" for number in numbers)
        calls.append(f'    printf("{line}\\n"{arguments});\n')
    with tempfile.TemporaryDirectory() as room:
        with open(f"{room}/abi.c", "w") as file:
            file.write('#include <stdio.h>\n#include "rpki.h"\n')
            file.write(f"int main(void) {{\n{''.join(calls)}    return 0;\n}}\n")
        words = [os.environ.get("CC", "cc"), "-std=c99", "-I", INCLUDE, f"{room}/abi.c", "-o", f"{room}/abi"]
        subprocess.run(words, check=True)
        print(subprocess.run([f"{room}/abi"], check=True, capture_output=True, text=True).stdout, end="")


main()
