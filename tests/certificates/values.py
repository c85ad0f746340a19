"""What is shown of single values of a certificate: names, keys, resources, and extensions that are not as RFC 6487 4.8
has them."""
import hashlib
import json

import forms
from der import oid
from fields import address_text, lines_of, size
from makers import authority, certificate as made, x509
from openssl import openssl
from programs import ran, write


def changed(folder, change):
    """A file of the certificate of the tests of hostile use, after a change."""
    it = made.Certificate()
    change(it)
    return write(folder, "changed", it.octets())


# What a common name may be that its text doesn't say as it is, or that is long, and moduli of as many bits.
COMMON_NAMES = [b" ", b"  ", b"   ", b" a", b"a ", b" a b ", b"a b", b"#a", b"a,b", b"a" * 127, b"a" * 128,
                b"a" * 300, b" " + b"a" * 70000 + b" "]
MODULI = [1024, 2047, 2049, 3072, 4096, 8192, 16384]
# Identifiers of attributes that have no name (X.690 8.19): their arcs; or their octets, where an arc isn't below 2^63.
IDENTIFIERS = ["0.0", "0.39", "1.0", "1.39", "2.0", "2.39", "2.40", "2.47", "2.48", "2.999", "1.2.3.4", "2.5.4.20",
               "1.2.127", "1.2.128", "1.2.16383", "1.2.16384", "1.2.4294967296.7", f"1.2.{2 ** 63 - 1}",
               f"2.{2 ** 63 - 81}"]
LARGE = [f"1.2.{2 ** 63}", f"1.2.{2 ** 64}.3", f"2.{2 ** 63 - 80}", f"1.2.{2 ** 200}"]


def subjects_and_keys(program, folder):
    """The text of a name, and the size of a key, are those that openssl tells."""
    for text in COMMON_NAMES:
        path = changed(folder, made.subject(("2.5.4.3", 0x13, text)))
        status, output, faults = ran(program, path)
        words = ["-subject", "-nameopt", "esc_2253,sep_comma_plus_space,sname"]
        wanted = openssl("x509", "-inform", "DER", "-in", path, "-noout", *words).decode().rstrip("\n").split("=", 1)[1]
        yield f"a name {text[:9]} of {len(text)}", (status, dict(lines_of(output))["Subject"], faults), (0, wanted, b"")
    for text in IDENTIFIERS + LARGE:
        status, output, faults = ran(program, changed(folder, made.subject((text, 0x13, b"x"))))
        wanted = f"OID {oid(text).hex().upper()}" if text in LARGE else text
        yield f"an attribute {text}", (status, dict(lines_of(output))["Subject"], faults), (0, f"{wanted}=x", b"")
    for bits in MODULI:
        modulus = (1 << (bits - 1) | 1).to_bytes(bits // 8 + 1, "big")
        path = changed(folder, made.key_bits(x509.rsa_numbers(modulus, made.EXPONENT)))
        status, output, faults = ran(program, path)
        fields = dict(lines_of(output))
        seen = fields["Public Key Bits"], fields["Public Key SHA-1"].replace(":", "")
        octets = x509.rsa_numbers(modulus, made.EXPONENT)
        wanted = size(path), hashlib.sha1(octets).hexdigest().upper()
        yield f"a key of {bits} bits", (status, seen, faults), (0, wanted, b"")


# Resources as openssl is told them, and what is shown of each kind: texts of Python's `ipaddress`.
OTHER = "not of the RPKI's profile (RFC 6487 {})"
OTHER_ADDRESSES, OTHER_NUMBERS = OTHER.format("4.8.10"), OTHER.format("4.8.11")
ADDRESSES, NUMBERS = "sbgp-ipAddrBlock = critical, ", "sbgp-autonomousSysNum = critical, "
MANY = [(f"10.{number // 128}.{number % 128 * 2}.0", f"10.{number // 128}.{number % 128 * 2}.255")
        for number in range(1000)]
RESOURCES = [
    ("both kinds", [ADDRESSES + "IPv4:10.0.0.0/8, IPv4:192.0.2.0-192.0.2.9, IPv6:2001:db8::/32", NUMBERS + "AS:64496"],
     {"IPv4": "10.0.0.0/8, 192.0.2.0-192.0.2.9", "IPv6": "2001:db8::/32", "AS": "AS64496"}),
    ("in another order", [ADDRESSES + "IPv4:192.0.2.0/24, IPv4:10.0.0.0/8, IPv4:192.0.3.0/24"],
     {"IPv4": "10.0.0.0/8, 192.0.2.0/23"}),
    ("addresses of the issuer", [ADDRESSES + "IPv4:inherit, IPv6:inherit"], {"IPv4": "inherit", "IPv6": "inherit"}),
    ("IPv6 of the issuer", [ADDRESSES + "IPv4:192.0.2.1, IPv6:inherit", NUMBERS + "AS:inherit"],
     {"IPv4": "192.0.2.1/32", "IPv6": "inherit", "AS": "inherit"}),
    ("all", [ADDRESSES + "IPv4:0.0.0.0/0, IPv6:::/0", NUMBERS + "AS:0-4294967295"],
     {"IPv4": "0.0.0.0/0", "IPv6": "::/0", "AS": "AS0-AS4294967295"}),
    ("ends of IPv6", [ADDRESSES + "IPv6:::, IPv6:2001:db8::1-2001:db8::ffff"],
     {"IPv6": "::/128, " + address_text(("2001:db8::1", "2001:db8::ffff"))}),
    ("numbers and ranges", [NUMBERS + "AS:1, AS:3-5, AS:4294967295"], {"AS": "AS1, AS3-AS5, AS4294967295"}),
    ("a thousand blocks", [ADDRESSES + ", ".join("IPv4:" + "-".join(ends) for ends in MANY)],
     {"IPv4": ", ".join(map(address_text, MANY))}),
    ("not critical", ["sbgp-ipAddrBlock = IPv4:10.0.0.0/8", "sbgp-autonomousSysNum = AS:1"],
     {"IPv4": OTHER_ADDRESSES, "IPv6": OTHER_ADDRESSES, "AS": OTHER_NUMBERS}),
    ("a routing domain", [NUMBERS + "AS:1, RDI:2"], {"AS": OTHER_NUMBERS}),
    ("none", [], {}),
]


def resources(program, folder):
    """What is shown of resources, as lines and as JSON."""
    for text, lines, wanted in RESOURCES:
        path = authority.with_extensions(folder, lines)
        status, output, faults = ran(program, path)
        seen = {label: value for label, value in lines_of(output) if label in ("IPv4", "IPv6", "AS")}
        yield f"resources: {text}", (status, seen, faults), (0, wanted, b"")
        status, output, faults = ran(program, "--json", path)
        kinds = ("ipv4", "ipv6", "as", "subordinate_resources")
        seen = [(name, value) for name, value in json.loads(output, object_pairs_hook=list) if name in kinds]
        named = forms.pairs(wanted.items()) + [forms.resources(wanted.items())]
        yield f"resources: {text}, as JSON", (status, seen, faults), (0, named, b"")


# Access descriptions as openssl is told them, and of which extensions lines have them, since fields don't show all.
PLACES = "subjectInfoAccess = caRepository;URI:rsync://a/b/, 1.3.6.1.5.5.7.48.10;URI:rsync://a/b/m.mft"
MANY_PLACES = ("subjectInfoAccess = caRepository;URI:rsync://a/b/, caRepository;URI:rsync://c/d/, "
               "1.3.6.1.5.5.7.48.10;URI:rsync://a/b/m.mft, 1.3.6.1.5.5.7.48.13;URI:https://a/n.xml, "
               "1.3.6.1.5.5.7.48.10;URI:rsync://c/d/m.mft, 1.2.3.4;URI:rsync://x/y")
WAYS = "authorityInfoAccess = caIssuers;URI:rsync://a/b/i.cer"
ISSUER, SUBJECT = forms.ACCESSES
ACCESS = [
    ("two of a method, and an unknown one", [MANY_PLACES], [SUBJECT]),
    ("two ways to the issuer", [WAYS + ", caIssuers;URI:rsync://c/d/i.cer, OCSP;URI:http://o/"], [ISSUER]),
    ("of each method one", [WAYS, PLACES], []),
    ("a method and no URI", [PLACES + ", 1.2.3.5;DNS:example.net, caRepository;RID:1.2.3"], [SUBJECT]),
    ("a URI of another scheme", ["subjectInfoAccess = caRepository;URI:https://a/b/"], [SUBJECT]),
    ("a URI without a path", [WAYS.replace("/b/i.cer", "/i.cer")], [ISSUER]),
    ("first a URI of another scheme", [WAYS.replace("rsync", "http") + ", caIssuers;URI:rsync://a/b/i.cer"], [ISSUER]),
    ("not as critical as they have to be", [WAYS.replace("= ", "= critical, "), PLACES], [ISSUER]),
]


def access(program, folder):
    """What is shown of access descriptions, as JSON all of them; as lines where fields don't show all."""
    for text, asked, labels in ACCESS:
        path = authority.with_extensions(folder, asked)
        status, output, faults = ran(program, path)
        seen = [(label, value) for label, value in lines_of(output) if label in forms.ACCESSES]
        wanted = [(label, value) for label, value in forms.lines(path) if label in labels]
        yield f"access: {text}", (status, seen, faults), (0, wanted, b"")
        status, output, faults = ran(program, "--json", path)
        pairs = json.loads(output, object_pairs_hook=list)[-2:]
        yield f"access: {text}, as JSON", (status, pairs, faults), (0, forms.listed(path), b"")
    invisible = x509.accesses((x509.REPOSITORY, x509.uri(b"rsync://a/\\\n\x7f ")))
    path = changed(folder, made.put(x509.SUBJECT_ACCESS, invisible))
    seen = dict(lines_of(ran(program, path)[1]))[SUBJECT]
    yield "access: no visible characters", seen, "Method caRepository, URI rsync://a/\\5C\\0A\\7F\\20"


# Extensions that openssl writes and that RFC 6487 doesn't give an authority, their fields and their sections.
UNLIKE = [
    ("a length of paths", "basicConstraints = critical, CA:TRUE, pathlen:1", "Basic Constraints", "4.8.1"),
    ("constraints that aren't critical", "basicConstraints = CA:TRUE", "Basic Constraints", "4.8.1"),
    ("a third use", "keyUsage = critical, keyCertSign, cRLSign, digitalSignature", "Key Usage", "4.8.4"),
    ("uses that aren't critical", "keyUsage = keyCertSign, cRLSign", "Key Usage", "4.8.4"),
    ("a policy of the web", "certificatePolicies = critical, 2.23.140.1.2.1", "Certificate Policies", "4.8.9"),
]


# Extensions that are critical, which RFC 6487 4.8.2 to 4.8.8 have otherwise, and the fields of each.
CRITICAL = [
    (made.turn(x509.SUBJECT_KEY), "4.8.2", ["SKI"]),
    (made.turn(x509.AUTHORITY_KEY), "4.8.3", ["AKI"]),
    (made.add(x509.PURPOSES, x509.names(x509.ROUTER), critical=True), "4.8.5", ["Extended Key Usage"]),
    (made.turn(x509.REVOCATION), "4.8.6", ["CRL Distribution Points"]),
    (made.turn(x509.AUTHORITY_ACCESS), "4.8.7", ["AIA"]),
    (made.turn(x509.SUBJECT_ACCESS), "4.8.8", ["CARepository", "Manifest", "SIA", "Notify URL"]),
]


def unlike(program, folder):
    """An extension that is well-formed, and not as the profile has it, is told as that."""
    for text, line, label, section in UNLIKE:
        status, output, faults = ran(program, authority.with_extensions(folder, [line]))
        yield f"unlike: {text}", (status, dict(lines_of(output)).get(label), faults), (
            0, OTHER.format(section), b"")
    for change, section, labels in CRITICAL:
        status, output, faults = ran(program, changed(folder, change))
        seen = [dict(lines_of(output)).get(label) for label in labels]
        yield f"critical: {section}", (status, seen, faults), (0, [OTHER.format(section)] * len(labels), b"")


TABLES = [subjects_and_keys, resources, access, unlike]
