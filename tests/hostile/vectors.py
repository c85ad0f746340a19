"""Worked examples of values, octet by octet, and what is made of them."""
import hashlib

from der import bits, sequence, tlv, unsigned

# How the program `rpkibasic` is used.
USAGE = b"usage: rpkibasic again|data|key|uri|ext|name\n"

# Algorithm identifiers: RFC 8017 A.2.4 and A.1, RFC 5480 2.1.1, RFC 5754 2.2, RFC 5758 3.2.
RSA_SIGNATURE = bytes.fromhex("300D06092A864886F70D01010B0500")
RSA_SIGNATURE_BARE = bytes.fromhex("300B06092A864886F70D01010B")
RSA_KEY = bytes.fromhex("300D06092A864886F70D0101010500")
P256_KEY = bytes.fromhex("301306072A8648CE3D020106082A8648CE3D030107")
ECDSA_SIGNATURE = bytes.fromhex("300A06082A8648CE3D040302")
SHA256 = bytes.fromhex("300B0609608648016503040201")
SHA256_IDENTIFIER = bytes.fromhex("0609608648016503040201")

# Signed data of 23 octets: an empty SEQUENCE, the algorithm, and a signature of one octet.
SIGNED = bytes.fromhex("3015 3000") + RSA_SIGNATURE + bytes.fromhex("030200AA")
SIGNED_BARE = bytes.fromhex("3013 3000") + RSA_SIGNATURE_BARE + bytes.fromhex("030200AA")

# A public key whose bits are `abc`, and its identifier (RFC 5280 4.2.1.2): SHA-1 of the bits without their count.
KEY = bytes.fromhex("3015") + RSA_KEY + bytes.fromhex("0304 00 616263")
KEY_IDENTIFIER = hashlib.sha1(b"abc").digest()
KEY_DIGITS = KEY_IDENTIFIER.hex().upper().encode()

COMMON_NAME = bytes.fromhex("0603550403")
NAME = bytes.fromhex("300C 310A 3008 0603550403 130141")
# A name with an organization name before the common name; and the same where that is a UTF8String, as routers may
# have it.
ORGANIZATION = bytes.fromhex("3018 310A 3008 060355040A 130142 310A 3008 0603550403 130141")
ROUTER_ORGANIZATION = bytes.fromhex("3018 310A 3008 060355040A 0C0142 310A 3008 0603550403 130141")
SUBJECT = sequence(tlv(0x31, sequence(COMMON_NAME, tlv(0x13, KEY_DIGITS))))

# The RSA key of the numbers 128 and 65,537 (RFC 8017 A.1.1).
RSA_NUMBERS = sequence(unsigned(128), unsigned(65_537))
RSA_OF_NUMBERS = bytes.fromhex("301D") + RSA_KEY + bytes.fromhex("030C00 3009 02020080 0203010001")
assert RSA_OF_NUMBERS == sequence(RSA_KEY, bits(RSA_NUMBERS))

VALIDITY = bytes.fromhex("3020") + tlv(0x17, b"200101000000Z") + tlv(0x18, b"20500101000000Z")
CONSTRAINTS = bytes.fromhex("300C 0603551D13 0101FF 04023000")
CONSTRAINTS_NOT_CRITICAL = bytes.fromhex("3009 0603551D13 04023000")

# An extension whose OCTET STRING is empty.
EXTENSION_WITHOUT_OCTETS = bytes.fromhex("3007 0603551D0E 0400")

# Two extensions, the first with a FALSE that X.690 11.5 leaves out; and the same as they are written.
EXTENSIONS = bytes.fromhex("300C 0603551D13 010100 04023000") + CONSTRAINTS
EXTENSIONS_WRITTEN = CONSTRAINTS_NOT_CRITICAL + CONSTRAINTS

# Values that are read whole as one, whatever a reader of their type says of their contents.
VALUES = [
    SIGNED,
    SIGNED_BARE,
    SIGNED[:-2] + bytes.fromhex("01AA"),
    SIGNED[:-2] + bytes.fromhex("02AA"),
    bytes.fromhex("3017 3002 0200") + RSA_SIGNATURE + bytes.fromhex("030200AA"),
    RSA_SIGNATURE,
    RSA_SIGNATURE_BARE,
    RSA_KEY,
    P256_KEY,
    ECDSA_SIGNATURE,
    bytes.fromhex("300C 06082A8648CE3D040302 0500"),
    SHA256,
    SHA256_IDENTIFIER,
    tlv(0x31, SHA256),
    tlv(0x31, SHA256 + SHA256),
    KEY,
    RSA_OF_NUMBERS,
    RSA_NUMBERS,
    NAME,
    bytes.fromhex("300C 310A 3008 0603550403 0C0141"),
    bytes.fromhex("3000"),
    bytes.fromhex("3100"),
    bytes.fromhex("3002 3100"),
    bytes.fromhex("3009 3107 3005 0603550403"),
    SUBJECT,
    VALIDITY,
    CONSTRAINTS,
    CONSTRAINTS_NOT_CRITICAL,
    EXTENSIONS[:14],
    bytes.fromhex("3006 3004 3002 3000"),
    bytes.fromhex("1F1F00"),
    bytes.fromhex("1F810000"),
    bytes.fromhex("1FFFFFFF7F00"),
    bytes.fromhex("050100"),
    bytes.fromhex("0500"),
    bytes.fromhex("2500"),
    bytes.fromhex("010101"),
    bytes.fromhex("0600"),
    bytes.fromhex("060180"),
    bytes.fromhex("06028001"),
    bytes.fromhex("06022A03"),
    bytes.fromhex("0300"),
    bytes.fromhex("030101"),
    bytes.fromhex("03020800"),
    bytes.fromhex("030100"),
    bytes.fromhex("030200AA"),
    bytes.fromhex("030201AA"),
    bytes.fromhex("030202AA"),
    bytes.fromhex("30020200"),
    bytes.fromhex("0200"),
    bytes.fromhex("020180"),
    bytes.fromhex("0202007F"),
    bytes.fromhex("0203010203"),
    bytes.fromhex("0204 00810203"),
    bytes.fromhex("020100"),
    bytes.fromhex("02020080"),
    bytes.fromhex("0214 7F") + b"\xFF" * 19,
    bytes.fromhex("0215 0080") + b"\x00" * 19,
    tlv(0x04, b"\x00" * 19),
    tlv(0x04, KEY_IDENTIFIER),
    tlv(0x13, KEY_DIGITS),
    tlv(0x86, b"rSync://hOst/module/"),
] + [
    tlv(0x17, text)
    for text in [
        b"500101000000Z", b"491231235959Z", b"801001163015Z", b"301001163015Z", b"30a001163015Z", b"30+001163015Z",
        b"200101000060Z",
    ]
] + [
    tlv(0x18, text)
    for text in [
        b"99991231235959Z", b"20301001163015Z", b"19000229000000Z", b"2030a001163015Z", b"2030+001163015Z",
    ]
]
