"""Parts of certificates and revocation lists (RFC 5280 4 and 5), by X.690 alone, and a certificate that is made of
them."""
import strict
from der import NULL, bits, identifier, sequence, set_of, tlv, unsigned

# Extensions, methods of access, policies, purposes and attributes of names.
CONSTRAINTS, SUBJECT_KEY, AUTHORITY_KEY, USAGE = "2.5.29.19", "2.5.29.14", "2.5.29.35", "2.5.29.15"
REVOCATION, POLICIES, PURPOSES = "2.5.29.31", "2.5.29.32", "2.5.29.37"
CRL_NUMBER, ISSUING_POINT = "2.5.29.20", "2.5.29.28"
AUTHORITY_ACCESS, SUBJECT_ACCESS = "1.3.6.1.5.5.7.1.1", "1.3.6.1.5.5.7.1.11"
ADDRESSES, NUMBERS, UNKNOWN = "1.3.6.1.5.5.7.1.7", "1.3.6.1.5.5.7.1.8", "1.3.6.1.4.1.99999.1"
ADDRESSES_V2, NUMBERS_V2 = "1.3.6.1.5.5.7.1.28", "1.3.6.1.5.5.7.1.29"
CA_ISSUERS, OCSP, REPOSITORY = "1.3.6.1.5.5.7.48.2", "1.3.6.1.5.5.7.48.1", "1.3.6.1.5.5.7.48.5"
MANIFEST, OBJECT, NOTIFY = "1.3.6.1.5.5.7.48.10", "1.3.6.1.5.5.7.48.11", "1.3.6.1.5.5.7.48.13"
POLICY, POLICY_V2 = "1.3.6.1.5.5.7.14.2", "1.3.6.1.5.5.7.14.3"
ROUTER, SERVER = "1.3.6.1.5.5.7.3.30", "1.3.6.1.5.5.7.3.1"
COMMON, SERIAL, ORGANIZATION, PRINTABLE, UTF8 = "2.5.4.3", "2.5.4.5", "2.5.4.10", 0x13, 0x0c


def algorithm(text, parameters=NULL):
    return sequence(identifier(text), parameters)


SHA256_WITH_RSA, SHA1_WITH_RSA = algorithm("1.2.840.113549.1.1.11"), algorithm("1.2.840.113549.1.1.5")
NO_PARAMETERS = algorithm("1.2.840.113549.1.1.11", b"")
RSA = algorithm("1.2.840.113549.1.1.1")


def of_names(*attributes):
    """The octets of a name of these attributes, each an identifier, a tag and octets."""
    return sequence(*(set_of(sequence(identifier(kind), tlv(tag, text))) for kind, tag, text in attributes))


def name(common, serial=None):
    """The octets of a name of a common name, and perhaps a serial number."""
    return of_names((COMMON, PRINTABLE, common.encode()), *([(SERIAL, PRINTABLE, serial.encode())] if serial else []))


def time(text):
    """UTCTime, or GeneralizedTime where the year has four digits."""
    return tlv(0x17 if len(text) == 13 else 0x18, text.encode())


def seconds(text):
    """The seconds since 1970 of the same."""
    return strict.seconds(0x17 if len(text) == 13 else 0x18, text.encode())


def validity(first, last):
    return sequence(time(first), time(last))


def rsa_numbers(modulus, exponent):
    """An RSAPublicKey of the contents of two INTEGERs (RFC 8017 A.1.1)."""
    return sequence(tlv(2, modulus), tlv(2, exponent))


def rsa_key(numbers):
    """A SubjectPublicKeyInfo of such octets (RFC 3279 2.3.1)."""
    return sequence(RSA, bits(numbers))


def extension(text, value, critical=b""):
    return sequence(identifier(text), critical, tlv(4, value))


def names(*identifiers):
    """Object identifiers, as those of purposes are."""
    return sequence(*map(identifier, identifiers))


def policies(*members):
    return sequence(*members)


def policy(text, *qualifiers):
    return sequence(identifier(text), *([sequence(*qualifiers)] if qualifiers else []))


STATEMENT = sequence(identifier("1.3.6.1.5.5.7.2.1"), tlv(22, b"https://example.net/cps"))
NOTICE = sequence(identifier("1.3.6.1.5.5.7.2.2"), sequence())


def point(*general_names, more=b""):
    return sequence(tlv(0xa0, tlv(0xa0, b"".join(general_names))) + more)


def uri(text):
    return tlv(0x86, text)


def access(method, general_name):
    """An access description."""
    return sequence(identifier(method), general_name)


def accesses(*pairs):
    return sequence(*(access(method, name) for method, name in pairs))


def extensions(members):
    """The field of a certificate."""
    return tlv(0xA3, sequence(*members))


def certificate(key, subject, issuer, serial, valid, members):
    """What is signed of a certificate: names and the key as octets, the serial number as an INTEGER, extensions."""
    return sequence(tlv(0xA0, unsigned(2)), serial, SHA256_WITH_RSA, issuer, valid, subject, key, extensions(members))


def signed(data, algorithm=SHA256_WITH_RSA, signature=bits(b"\xaa" * 256)):
    """Signed data (RFC 5280 4.1.1)."""
    return sequence(data, algorithm, signature)
