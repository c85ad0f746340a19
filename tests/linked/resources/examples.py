"""Makes the examples of RFC 3779, appendices B and C, by openssl from the addresses and numbers that the RFC tells, and
compares the octets with those that rows.py has. Needs openssl.

usage: examples.py"""
import os
import re
import sys
import tempfile

sys.dont_write_bytecode = True
sys.path.append(os.path.join(os.path.dirname(os.path.abspath(__file__)), "..", "..", "python"))

import rows
from counting import end, same
from openssl import openssl
from programs import write

# Each example of rows.EXAMPLES_IP, and of rows.EXAMPLES_AS: lines of openssl's sections.
IP = [
    ["IPv4-SAFI.0 = 1:10.0.32.0/20", "IPv4-SAFI.1 = 1:10.0.64.0/24", "IPv4-SAFI.2 = 1:10.1.0.0/16",
     "IPv4-SAFI.3 = 1:10.2.48.0/20", "IPv4-SAFI.4 = 1:10.2.64.0/24", "IPv4-SAFI.5 = 1:10.3.0.0/16", "IPv6 = inherit"],
    ["IPv4.0 = 10.0.32.0/20", "IPv4.1 = 10.0.64.0/24", "IPv4.2 = 10.1.0.0/16", "IPv4.3 = 10.2.48.0/20",
     "IPv4.4 = 10.2.64.0/24", "IPv4.5 = 10.3.0.0/16", "IPv6 = inherit"],
    ["IPv4-SAFI.0 = 1:10.0.0.0/8", "IPv4-SAFI.1 = 1:172.16.0.0/12", "IPv4-SAFI.2 = 2:inherit",
     "IPv6.0 = 2001:0:2::/48"],
    ["IPv4.0 = 10.0.0.0/8", "IPv4.1 = 172.16.0.0/12", "IPv6.0 = 2001:0:2::/48"],
]
AS = [
    ["AS.0 = 135", "AS.1 = 3000-3999", "AS.2 = 5001", "RDI = inherit"],
    ["AS.0 = 135", "AS.1 = 3000-3999", "AS.2 = 5001"],
]
CONFIGURATION = """[req]
distinguished_name = name
x509_extensions = extensions
[name]
[extensions]
{extension} = @section
[section]
"""


def contents(folder, extension, lines):
    """The contents of the extension, as openssl writes it into a certificate."""
    text = CONFIGURATION.format(extension=extension) + "\n".join(lines) + "\n"
    words = ["-x509", "-config", write(folder, "configuration", text.encode()), "-newkey", "rsa:1024", "-nodes"]
    words += ["-subj", "/CN=a", "-keyout", os.path.join(folder, "key"), "-outform", "DER"]
    shown = openssl("asn1parse", "-inform", "DER", input=openssl("req", *words))
    found = re.search(extension.encode() + rb"\n.*OCTET STRING +\[HEX DUMP\]:([0-9A-F]+)", shown)
    return found[1].decode().lower() if found else "no extension"


def main():
    told = [("sbgp-ipAddrBlock", IP, rows.EXAMPLES_IP), ("sbgp-autonomousSysNum", AS, rows.EXAMPLES_AS)]
    with tempfile.TemporaryDirectory() as folder:
        for extension, examples, wanted in told:
            if len(examples) != len(wanted):
                sys.exit(f"{extension}: {len(wanted)} examples")
            for lines, octets in zip(examples, wanted):
                same(str(lines), contents(folder, extension, lines), octets)
    end()


if __name__ == "__main__":
    main()
