"""Writes the rows of trust anchor locators, which the test in C reads: texts, each with what RFC 8630 2.2 says of it. A
text is put together of what is expected of it; nothing reads it here. The key is of fixed numbers.

usage: rows.py > FILE

A row is the text in hexadecimal digits, the status of rpki_locator, and the number of the line that it names; of a
locator 0, and in the number's place the key and each URI, in hexadecimal digits. `-` stands for no text."""
import base64
import os
import sys

sys.dont_write_bytecode = True
sys.path.append(os.path.join(os.path.dirname(os.path.abspath(__file__)), "..", "..", "python"))

from makers import x509

OTHER_URI, NO_URI, NO_KEY, OTHER_TEXT, OTHER_KEY = range(24, 29)
NUMBERS = x509.rsa_numbers(b"\x00" + b"\xa5" * 256, b"\x01\x00\x01")
KEY = x509.rsa_key(NUMBERS)
# The same without NULL, which the key that is written has (RFC 8017 A.1).
BARE_KEY = x509.sequence(x509.algorithm("1.2.840.113549.1.1.1", b""), x509.bits(NUMBERS))
DIGITS = base64.b64encode(KEY)
RSYNC, HTTPS = b"rsync://rpki.example/repo/ta.cer", b"https://rpki.example/ta.cer"
# Texts that are locators, each with its URIs.
RIGHT = [
    (RSYNC + b"\n\n" + DIGITS + b"\n", [RSYNC]),
    (RSYNC + b"\n\n" + DIGITS, [RSYNC]),
    (RSYNC + b"\r\n\r\n" + DIGITS + b"\r\n", [RSYNC]),
    (HTTPS + b"\n" + RSYNC + b"\n\n" + DIGITS + b"\n", [HTTPS, RSYNC]),
    (RSYNC + b"\n" + HTTPS + b"\r\n" + HTTPS + b"\n\n" + DIGITS + b"\n", [RSYNC, HTTPS, HTTPS]),
    (b"# one\n#\r\n# rsync://other/\n" + HTTPS + b"\n\n" + DIGITS + b"\n", [HTTPS]),
    (RSYNC + b"\n\n" + base64.encodebytes(KEY), [RSYNC]),
    (RSYNC + b"\n\n" + base64.b64encode(BARE_KEY), [RSYNC]),
    (RSYNC + b"\n\n" + base64.encodebytes(KEY).replace(b"\n", b"\r\n") + b"\n\n", [RSYNC]),
    (RSYNC + b"\n\n" + b"\n".join(DIGITS[at:at + 1] for at in range(len(DIGITS))), [RSYNC]),
    (b"RSYNC://RPKI.example/repo/ta.cer\nHTTPS://rpki.example\n\n" + DIGITS,
     [b"RSYNC://RPKI.example/repo/ta.cer", b"HTTPS://rpki.example"]),
    (b"#" * 4000 + b"\n" + RSYNC + b"\n\n" + DIGITS, [RSYNC]),
    (b"#\n" * 1000 + RSYNC + b"\n\n" + DIGITS, [RSYNC]),
    ((HTTPS + b"\n") * 100 + b"\n" + DIGITS + b"\n" * 2000, [HTTPS] * 100),
]
# Texts that are none, each with the status and the line.
WRONG = [
    (b"", NO_URI, 1),
    (b"\n\n" + DIGITS, NO_URI, 1),
    (b"# one\n# two", NO_URI, 3),
    (b"# one\n\n" + DIGITS, NO_URI, 2),
    (b"rsync://rpki.example/repo/\n\n" + DIGITS, OTHER_URI, 1),
    (b"http://rpki.example/ta.cer\n\n" + DIGITS, OTHER_URI, 1),
    (b" " + RSYNC + b"\n\n" + DIGITS, OTHER_URI, 1),
    (RSYNC + b" \n\n" + DIGITS, OTHER_URI, 1),
    (RSYNC + b"\r\r\n\n" + DIGITS, OTHER_URI, 1),
    (RSYNC + b"\n# late\n\n" + DIGITS, OTHER_URI, 2),
    (b"#\n" + RSYNC + b"\n" + DIGITS, OTHER_URI, 3),
    (RSYNC + b"\n \n" + DIGITS, OTHER_URI, 2),
    (RSYNC, NO_KEY, 2),
    (b"#\n" + RSYNC + b"\n" + HTTPS, NO_KEY, 4),
    (RSYNC + b"\n\n" + DIGITS[:-1], OTHER_TEXT, 3),
    (RSYNC + b"\n\n" + DIGITS + b"=", OTHER_TEXT, 3),
    (RSYNC + b"\n\n" + DIGITS[:64] + b" " + DIGITS[64:], OTHER_TEXT, 3),
    (b"#\n" + RSYNC + b"\n\n" + DIGITS[:64] + b"\n#\n" + DIGITS[64:], OTHER_TEXT, 4),
    (RSYNC + b"\n\n" + DIGITS.replace(b"+", b"-").replace(b"/", b"_").replace(b"A", b"-"), OTHER_TEXT, 3),
    (RSYNC + b"\n", OTHER_KEY, 3),
    (RSYNC + b"\n\n\n", OTHER_KEY, 3),
    (RSYNC + b"\n\n" + base64.b64encode(KEY[:-1]), OTHER_KEY, 3),
    (RSYNC + b"\n\n" + base64.b64encode(KEY + b"\x00"), OTHER_KEY, 3),
    (b"#\n" + RSYNC + b"\n\n" + base64.b64encode(x509.NO_PARAMETERS), OTHER_KEY, 4),
    (b"\n" * 4097, NO_URI, 1),
    (b"https://a\n" * 65, OTHER_KEY, 67),
    (b"https://a\n" * 65 + b"\n" * 4097, OTHER_KEY, 67),
    (b"#\n" * 4000, NO_URI, 4001),
    ((HTTPS + b"\n") * 100, OTHER_KEY, 102),
]


def main():
    for text, uris in RIGHT:
        print(text.hex(), 0, KEY.hex(), *(uri.hex() for uri in uris))
    for text, status, line in WRONG:
        print(text.hex() or "-", status, line)


if __name__ == "__main__":
    main()
