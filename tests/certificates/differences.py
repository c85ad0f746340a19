"""Where rpkicert and rpki-client differ: the changes of alterations.py and the lists of tests/python/variants, by the
reason."""
from variants.lists import NO_DATES

# Why they differ: the changes for which rpki-client alone says yes, by the reason, and then rpkicert alone.
STRICTER = {
    "version 3 alone (RFC 6487 4.1)": [
        "version 2", "version 1", "no version",
    ],
    "a positive number of twenty octets at most (RFC 5280 4.1.2.2, RFC 6487 4.2)": [
        "serial number 0", "serial number below 0", "serial number of 21 octets", "the serial number 0",
        "the serial number below 0", "the serial number of 21 octets",
    ],
    "whole octets are signed, by the algorithm that is named twice (RFC 5280 4.1.1.2, RFC 7935 2); there by OpenSSL": [
        "algorithms that differ", "a signature with unused bits",
    ],
    "an extension stands once (RFC 5280 4.2)": [
        "an unknown extension twice", "subject access, twice",
    ],
    "an unknown critical extension is rejected (RFC 5280 4.2); there by OpenSSL": [
        "an unknown critical extension",
    ],
    "the extension is critical (RFC 6487 4.8.1, 4.8.4)": [
        "basic constraints, not critical", "usage, not critical", "basic constraints, as critical as not",
        "key usage, as critical as not",
    ],
    "DER is the only encoding (RFC 5280 4.1, X.690 10 and 11)": [
        "usage with bits after the last that is set", "basic constraints, with an octet after it",
        "basic constraints, with FALSE or another TRUE spelled",
        "the subject key identifier, with an octet after it",
        "the authority key identifier, with an octet after it", "key usage, with an octet after it",
        "key usage, with FALSE or another TRUE spelled", "the points, with an octet after it",
        "issuer access, with an octet after it", "subject access, with an octet after it",
        "the policies, with an octet after it", "the policies, with FALSE or another TRUE spelled",
        "points: an indefinite length", "points: a value after it", "ways to the issuer: an indefinite length",
        "ways to the issuer: a value after it", "access to an authority: an indefinite length",
        "access to an authority: a value after it",
        "the addresses, with FALSE or another TRUE spelled", "the numbers, with FALSE or another TRUE spelled",
    ],
    "resources are in canonical form (RFC 3779 2.2.3, 3.2.3, RFC 6487 4.8.10); of one file alone that isn't looked at "
    "there": [
        "addresses: no family", "addresses: no block", "addresses: families out of order",
        "addresses: a bit that is not used", "addresses: blocks out of order",
        "addresses: blocks that continue one another", "addresses: a range that is a prefix",
        "addresses: a range with a zero at its end", "addresses: an octet after them", "numbers: no number",
        "numbers: numbers that continue one another", "numbers: an octet after them",
        "the addresses, with an octet after it", "the numbers, with an octet after it",
    ],
    "a trust anchor has resources of its own (RFC 8630 2.3)": [
        "a trust anchor that inherits addresses", "a trust anchor that inherits numbers",
    ],
    "policy and resources are of one version (RFC 8360 4.2)": [
        "addresses of RFC 8360 beside others", "numbers of RFC 8360 beside others", "the resources of RFC 8360",
        "resources of both kinds", "the addresses of RFC 8360 alone", "the numbers of RFC 8360 alone",
    ],
    "one critical extension of policies is there (RFC 6487 4.8.9, RFC 5280 4.2)": [
        "no policies", "the policies, left out", "the policies, twice",
    ],
    "a point has no reasons, and its name is URIs alone (RFC 6487 4.8.6)": [
        "a point with reasons", "points: reasons", "points: a host after a URI",
    ],
    "a key has 2,048 bits and the exponent 65,537 (RFC 7935 3); there OpenSSL looks at it, once a chain is verified": [
        "a key of other octets", "a key of no bits", "a key with an octet after it", "a key with unused bits",
        "a key of 2,047 bits", "a key of 2,049 bits", "a key of 1,024 bits", "a key of 4,096 bits",
        "a key with the exponent 3", "a key with the exponent 1", "a modulus below 0",
        "a key with a third number", "a key of junk", "a key without bits", "a key with a modulus below 0",
        "a key and an octet",
    ],
    "times are of RFC 5280 4.1.2.5, and in order": [
        "a period that ends first", "a period in reverse", "a period without seconds",
        "a period of another zone", "a period of 31 February",
    ],
    "a router's key is an uncompressed point of 65 octets (RFC 8608 3.1, RFC 5480 2.2)": [
        "a router with a compressed point", "a router's key in short",
    ],
    "names are held to RFC 6487 4.4 and RFC 5280 A.1": [
        "the issuer's name empty", "the subject's name empty", "the issuer's name of a UTF8String",
        "the subject's name of a UTF8String", "the issuer's name of two common names",
        "the subject's name of two common names", "the issuer's name of a serial number alone",
        "the subject's name of a serial number alone", "the issuer's name with a country",
        "the subject's name with a country", "the issuer's name of an underscore",
        "the subject's name of an underscore", "the issuer's name of an empty string",
        "the subject's name of an empty string", "the issuer's name of 300 letters",
        "the subject's name of 300 letters", "an empty common name", "a common name of 65 letters",
        "a serial number of 65 digits", "an issuer of no letters", "an issuer of 65 letters",
        "an issuer with an organization of 65 letters", "a common name of 65 letters of UTF-8",
    ],
    "a manifest lies below its repository (RFC 6487 4.8.8.1, RFC 9286 2)": [
        "a manifest beside the repository",
    ],
    "there are no unique identifiers (RFC 6487 4)": [
        "unique identifiers",
    ],
    "who names itself as its issuer has signed itself (RFC 8630 2.3); there OpenSSL looks at that, along a chain": [
        "a trust anchor", "a trust anchor without an authority key identifier",
    ],
}
LAXER = {
    "rpki-client 8.2 knows no RFC 8360": [
        "the policy and the resources of RFC 8360",
    ],
    "of several descriptions of a method the first rsync URI is taken (RFC 6487 4.8.7, 4.8.8)": [
        "other ways to the issuer", "other names of the repository", "issuer access with its first twice",
    ],
    "whether a router's point lies on the curve isn't tested": [
        "a router", "a router's name of UTF-8", "a router's name of 64 letters of two octets",
        "a router's serial number", "a router's organization of UTF-8",
    ],
    "an authority is compared without case (RFC 3986 6.2.2.1)": [
        "a repository in upper case",
    ],
    "URIs have 3,071 octets at most": [
        "URIs of 3,000 octets",
    ],
    "a name of another form beside a good URI is passed over (RFC 5280 4.2.1.6)": [
        "issuer access with a directory name first", "issuer access with a name of a host first",
        "subject access with a directory name first", "subject access with a name of a host first",
        "the issuer by another name", "the issuer by a mailbox", "the issuer by a host",
        "the issuer by an address of X.400", "the issuer by a directory name", "the issuer by a name of EDI",
        "the issuer by an address of IPv4", "the issuer by an address of IPv6", "the issuer by an identifier",
    ],
    "what the manifest's file is called isn't looked at (RFC 6481 2.2 names it)": [
        "a manifest of another name",
    ],
}
LISTS = {
    "version 2 alone (RFC 6487 5)": [
        "version 1, which is left out", "version 1, spelled", "version 3",
    ],
    "RSA with SHA-256, named twice, signs whole octets (RFC 7935 2, RFC 5280 5.1.1.2); there by OpenSSL": [
        "SHA-1", "SHA-1 inside", "algorithms that differ", "a signature with unused bits",
    ],
    "an entry is a serial number of twenty octets at most, and a time (RFC 6487 5, RFC 5280 4.1.2.2)": [
        "an entry with extensions", "a serial number below 0", "a serial number of 21 octets",
    ],
    "the date of an entry is one (RFC 5280 5.1.2.6, 4.1.2.5); there by OpenSSL, which doesn't read it": [
        "an entry whose date has no time", *(f"an entry of the date {date}" for date in NO_DATES),
    ],
    "there are two extensions, neither critical, and no other (RFC 6487 5)": [
        "a third extension", "a third extension between the two", "a critical number",
    ],
    "DER is the only encoding (RFC 5280 5.1, X.690 10)": [
        "a value after the identifier", "two numbers in one", "a value after the list", "an indefinite length",
    ],
}
EXPECTED_LISTS = {text: (False, True) for texts in LISTS.values() for text in texts}
EXPECTED = {text: (False, True) for texts in STRICTER.values() for text in texts}
EXPECTED.update({text: (True, False) for texts in LAXER.values() for text in texts})
