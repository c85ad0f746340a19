"""Writes the rows of small names, which the tests in C and of the package read: all names of up to two attributes, each
with the status of its first broken rule, of those of certificates of the RPKI and of those of routers. They are found
by tests/python/variants/names.py.

usage: rows.py > FILE

A row is the octets in hexadecimal digits, and the two statuses."""
import os
import sys

sys.dont_write_bytecode = True
sys.path.append(os.path.join(os.path.dirname(os.path.abspath(__file__)), "..", "..", "python"))

from variants.names import names


def main():
    for octets, due in names():
        print(octets.hex(), *due)


if __name__ == "__main__":
    main()
