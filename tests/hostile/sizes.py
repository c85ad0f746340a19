"""Calls that may allocate, at real sizes, and on real certificates and keys.

A contract says nothing of when memory ends, so a body that gives up on all but small inputs keeps it. Here each such
call is made at the sizes below, in octets, in values, in levels, or in what else it has many of, under `refuse.c`,
which refuses nothing: a call that tells then that memory ran out has given up."""
import base64
import hashlib
import os
from itertools import chain

from allocations import made, on_cursor, on_octets, on_uri, on_value
from der import NULL, bits, nested, sequence, tlv, unsigned
from lax import contents, members
from programs import TOP
from shim import Shim
from vectors import COMMON_NAME, P256_KEY, RSA_KEY, RSA_SIGNATURE

SIZES = [0, 1, 127, 128, 255, 256, 65_535, 65_536, 1_000_000]


def filled(size):
    """So many octets, of which the last seven bits can be unused."""
    return b"\xA5" * (size - 1) + b"\x80" if size else b""


def path_of(size):
    """A path of so many octets, of segments of 255 octets at most."""
    return (b"a" * 255 + b"/") * (size // 256) + b"a" * (size % 256)


# The longest rsync URI that is read has 3,071 octets after `rsync://`, and the longest that is joined 3,071 in all.
RSYNC_SIZES = [0, 1, 127, 128, 255, 256, 3_071 - len(b"host/module/")]
MOST_JOINED = 3_071 - len(b"rsync://host/module/")


def values():
    """Values of so many octets, members and levels, and how many headers they have."""
    for size in SIZES:
        yield f"{size} octets", tlv(0x04, filled(size)), 1
        yield f"{size} members", sequence(NULL * size), size + 1
        yield f"{size} levels", nested(size), size + 1


def bit_strings():
    """So many octets with so many unused bits."""
    for size in SIZES:
        for unused in range(8) if size in (1, 128, 256) else [0]:
            yield f"{size} octets, {unused} unused bits", filled(size), unused


def both_cursors(call, octets, answer, left=b""):
    """A call on a cursor that shares its octets, and on one that borrows them."""
    for group in ["cursor", "slice"]:
        yield on_cursor(call, octets, answer, left, group=group)


def reading():
    """Calls that read any value, or make one of others."""
    for name, value, headers in values():
        whole = b"size %d" % len(value)
        for call in [
            *both_cursors("capture_one", value, made(value)),
            *both_cursors("capture", value, made(value)),
            on_cursor("skip_one", value, b"done"),
            on_cursor("skip_nested", value, b"done"),
            on_cursor("walk", value, b"done", counts=[headers]),
            on_cursor("walk_octets", value, whole, value, counts=[headers]),
            on_cursor("index_octets", value, whole + b"\nentries %d" % headers, value),
            on_value("captured", "clone", value, made(value), True),
            on_value("captured", "from_values", value, made(sequence(value)), True),
        ]:
            yield name, call
    for size in SIZES[1:]:
        repeated = on_value("captured", "repeated", NULL, made(NULL * size), True, words=[str(size)])
        yield f"{size} values", repeated


def keeping():
    """Calls that keep contents, numbers in a list, and the URIs of general names."""
    for size in SIZES:
        for call in [
            *both_cursors("take_octets", tlv(0x04, filled(size)) + NULL, made(filled(size)), NULL),
            *both_cursors("take_numbers", b"\x02\x01\x05" * size, made(b"\x05" * size)),
        ]:
            yield f"{size} octets or numbers", call
        text = b"https://host/" + b"a" * size
        for call in both_cursors("take_https_name", tlv(0x86, text) + NULL, made(text), NULL):
            yield f"path of {size} octets", call
    for size in RSYNC_SIZES:
        text = b"rsync://host/module/" + path_of(size)
        for call in both_cursors("take_rsync_name", tlv(0x86, text) + NULL, made(text), NULL):
            yield f"path of {size} octets", call


def bit_string_calls():
    """Calls on bit strings."""
    for name, octets, unused in bit_strings():
        value = bits(octets, unused)
        for call in [
            *both_cursors("take_bit_string", value, made(value)),
            on_value("bits", "clone", value, made(value), False),
            on_value("bits", "octet_bytes", value, made(octets), False),
        ]:
            yield name, call


def signed_calls(parts, value, signature, written):
    """Calls on signed data of these parts, which is written so."""
    signed = sequence(parts)
    for call in [
        on_octets("whole", "decode_signed", signed, made(written)),
        *both_cursors("take_signed", signed, made(written)),
        *both_cursors("take_parts", parts, made(written)),
        on_value("signed", "clone", signed, made(written), False, held=written),
        on_value("signed", "clone_signature", signed, made(signature), False, held=written),
        on_value("signed", "clone_data", signed, made(value), False, held=written),
    ]:
        yield call


def signing():
    """Signed data with large values, and with large signatures."""
    for name, value, _ in values():
        parts = value + RSA_SIGNATURE + bits(b"\xAA")
        for call in signed_calls(parts, value, b"\xAA", sequence(parts)):
            yield f"data of {name}", call
    for name, octets, unused in bit_strings():
        written = sequence(NULL, RSA_SIGNATURE, bits(octets))
        for call in signed_calls(NULL + RSA_SIGNATURE + bits(octets, unused), NULL, octets, written):
            yield f"signature of {name}", call


def subject_of(octets):
    """The name that a key with these bits gives its certificate."""
    identifier = hashlib.sha1(octets).hexdigest().upper().encode()
    return sequence(tlv(0x31, sequence(COMMON_NAME, tlv(0x13, identifier))))


def key_calls(key, octets):
    """Calls on a key with these bits."""
    for call in [
        on_octets("whole", "decode_key", key, made(key)),
        *both_cursors("take_key", key, made(key)),
        on_value("key", "clone", key, made(key), False),
        on_value("key", "bits_bytes", key, made(octets), False),
        on_value("key", "to_info_bytes", key, made(key), True),
        on_value("key", "to_subject_name", key, made(subject_of(octets)), True),
        on_value("key", "from_pub_key", key, made(subject_of(octets)), True),
    ]:
        yield call


def keys():
    """Keys with large bits, and RSA keys with large numbers."""
    for name, octets, unused in bit_strings():
        for algorithm, kind in [(RSA_KEY, "RSA"), (P256_KEY, "P-256")]:
            for call in key_calls(sequence(algorithm, bits(octets, unused)), octets):
                yield f"{kind} key of {name}", call
    for size in SIZES:
        number = b"\xC1" * size
        integer = tlv(0x02, b"\x00" + number)
        of_modulus, of_exponent = sequence(integer, unsigned(65_537)), sequence(unsigned(3), integer)
        for call, numbers in [("rsa_from_components", of_modulus), ("rsa_of_exponent", of_exponent)]:
            answer = made(sequence(RSA_KEY, bits(numbers))) if size else b"refused 0"
            yield f"number of {size} octets", on_octets("whole", call, number, answer)
            if size:
                yield f"number of {size} octets", on_octets("whole", "rsa_from_bits_bytes", numbers, answer)


def named(value):
    """A name of one attribute with this value."""
    return sequence(tlv(0x31, sequence(COMMON_NAME, value)))


def name_calls(name):
    """Calls on a name."""
    yield from both_cursors("take_name", name + NULL, made(name), NULL)
    yield on_octets("whole", "decode_name", name, made(name))
    yield on_value("name", "clone", name, made(name), False)


def names():
    """Names with large values, and with many parts."""
    for what, value, _ in values():
        for call in name_calls(named(value)):
            yield f"name with a value of {what}", call
    attribute = sequence(COMMON_NAME, NULL)
    for size in SIZES[1:]:
        for call in name_calls(sequence(tlv(0x31, attribute) * size)):
            yield f"name of {size} relative distinguished names", call
        for call in name_calls(sequence(tlv(0x31, attribute * size))):
            yield f"name of {size} attributes", call


def extension_calls(octets, written):
    """Calls on an extension, which is written so."""
    yield from both_cursors("take_extension", octets + NULL, made(written), NULL)
    yield on_octets("whole", "decode_extension", octets, made(written))
    yield from both_cursors("take_opt_extension", octets + NULL, made(written), NULL)
    yield on_value("extension", "clone", octets, made(written), False, held=written)


def extensions():
    """Extensions with large values, and with large identifiers."""
    identifier = bytes.fromhex("0603551D13")
    for size in SIZES:
        octets = tlv(0x04, filled(size))
        plain = sequence(identifier, octets)
        critical = sequence(identifier, bytes.fromhex("0101FF"), octets)
        for extension, written in [
            (plain, plain), (critical, critical), (sequence(identifier, bytes.fromhex("010100"), octets), plain),
        ]:
            for call in extension_calls(extension, written):
                yield f"extension of {size} octets", call
        if size:
            extension = sequence(tlv(0x06, b"\x2A" * size), tlv(0x04, b""))
            for call in extension_calls(extension, extension):
                yield f"identifier of {size} octets", call


def text_calls(group, text):
    """Calls that read a text as a URI, and that need its text alone."""
    for call in ["from_bytes", "from_slice", "from_string", "from_str"]:
        yield on_octets(group + "_of", call, text, made(text))
    yield on_uri(group, "clone", text, made(text), False)
    yield on_uri(group, "unshare", text, b"done", True)
    yield on_uri(group, "path_into_dir", text, b"done", True, after=text if text.endswith(b"/") else text + b"/")


def rsync_uris():
    """Rsync URIs with long paths, and with long authorities and modules."""
    module = b"rsync://host/module/"
    for size in RSYNC_SIZES:
        path = path_of(size)
        joined = path[:MOST_JOINED]
        for call in [
            *text_calls("rsync", module + path),
            on_uri("rsync", "to_bytes", module + path, made(module + path), False),
            on_uri("rsync", "join", module, made(module + joined), True, words=[joined.decode()]),
        ]:
            yield f"path of {size} octets", call
        above = module + (path_of(size - 2) + b"/" if size > 2 else b"")
        yield f"parent of {len(above)} octets", on_uri("rsync", "parent", above + b"a", made(above), False)
    for size in [1, 127, 128, 255]:
        for site in [b"H" * size + b"/module/", b"HOST/" + b"m" * size + b"/"]:
            text, lower = b"rsync://" + site, b"rsync://" + site.lower()
            authority = site.split(b"/")[0].lower()
            for call in [
                *text_calls("rsync", text),
                on_uri("rsync", "canonical_authority", text, made(authority), True),
                on_uri("rsync", "canonical_module", text, made(lower), True),
                on_uri("rsync", "canonical_authority", lower, made(authority), False),
                on_uri("rsync", "canonical_module", lower, made(lower), False),
                on_uri("rsync", "join", text, made(text + b"file"), True, words=["file"]),
                on_uri("rsync", "parent", text + b"a/b", made(text + b"a/"), False),
            ]:
                yield f"rsync URI of {len(site)} octets", call


def https_uris():
    """Https URIs with long paths, and with long authorities."""
    host = b"https://host/"
    for size in SIZES:
        text = host + b"a" * size
        for call in [
            *text_calls("https", text),
            on_uri("https", "join", text, made(text + (b"/file" if size else b"file")), True, words=["file"]),
            on_uri("https", "join_own_path", text, made(text + b"/" * (size > 0) + text[len(host) - 1:]), True),
            on_uri("https", "parent", text + b"/b", made(text + b"/"), False),
        ]:
            yield f"path of {size} octets", call
        if size <= 65_536:
            joined = on_uri("https", "join", host, made(text), True, words=["a" * size])
            yield f"joined path of {size} octets", joined
    for size in [1, 127, 128, 255]:
        text, lower = b"https://" + b"H" * size + b"/p", b"https://" + b"h" * size + b"/p"
        for call in [
            *text_calls("https", text),
            on_uri("https", "canonical_authority", text, made(b"h" * size), True),
            on_uri("https", "canonical_authority", lower, made(b"h" * size), False),
        ]:
            yield f"authority of {size} octets", call


def texts():
    """Digits of base 64."""
    for size in SIZES:
        octets = filled(size)
        standard, url_safe = base64.b64encode(octets), base64.urlsafe_b64encode(octets).rstrip(b"=")
        spaced = b"\n ".join(standard[at:at + 64] for at in range(0, len(standard), 64))
        for call in [
            on_value("text", "xml_encode", octets, made(standard), True),
            on_value("text", "xml_decode", spaced, made(octets), True),
            on_value("text", "xml_decode_bytes", spaced, made(octets), True),
            on_value("text", "serde_encode", octets, made(standard), True),
            on_value("text", "serde_decode", standard, made(octets), True),
            on_value("text", "slurm_encode", octets, made(url_safe), True),
            on_value("text", "slurm_decode", url_safe, made(octets), True),
        ]:
            yield f"{size} octets", call


# Certificates by `openssl req -x509` and `openssl x509 -req`: RSA keys of 2,048 and 4,096 bits, which sign themselves,
# and a P-256 key, signed by the first of them; and the example of the repository.
CERTIFICATES = ["tests/hostile/real/" + name for name in ["rsa_2048.der", "rsa_4096.der", "p256.der"]]
CERTIFICATES.append("examples/certificate.der")


def certificates():
    """Real certificates, and the names, keys and extensions in them."""
    for path in CERTIFICATES:
        with open(os.path.join(TOP, path), "rb") as file:
            certificate = file.read()
        for call in [
            *both_cursors("capture_one", certificate, made(certificate)),
            *both_cursors("capture", certificate, made(certificate)),
        ]:
            yield path, call
        value, algorithm, signature = members(contents(certificate))
        assert algorithm == RSA_SIGNATURE and signature[4:5] == b"\x00"
        for call in signed_calls(contents(certificate), value, contents(signature)[1:], certificate):
            yield path, call
        # The version, the serial number and the algorithm; the issuer, the times, the subject, the key; and the
        # extensions, in a SEQUENCE in a value of tag 3.
        _, _, _, issuer, _, subject, key, tagged = members(contents(value))
        for name in [issuer, subject]:
            for call in name_calls(name):
                yield f"a name of {path}", call
        for call in key_calls(key, contents(members(contents(key))[1])[1:]):
            yield f"the key of {path}", call
        for extension in members(contents(contents(tagged))):
            for call in extension_calls(extension, extension):
                yield f"an extension of {path}", call


def under_shim(programs, rows):
    """Each call answers as it must, and the shim says that it refused nothing."""
    calls = 0
    with Shim() as shim:
        for name, call in rows:
            seen, allocations = shim.run(programs.calls, call.words, call.octets)
            words = " ".join(call.words)[:60]
            calls += 1
            yield f"{words}, {name}", seen, (0, call.answer, b"")
            yield f"{words}, {name}, is under the shim", allocations.met > 0 and allocations.refused == 0, True
    return f"{calls} calls"


def sizes_of_values(programs):
    """Any values."""
    return (yield from under_shim(programs, chain(reading(), keeping(), bit_string_calls())))


def sizes_of_signed_data(programs):
    """Signed data."""
    return (yield from under_shim(programs, signing()))


def sizes_of_parts(programs):
    """Keys, names and extensions, and real certificates."""
    return (yield from under_shim(programs, chain(keys(), names(), extensions(), certificates())))


def sizes_of_texts(programs):
    """URIs and digits."""
    return (yield from under_shim(programs, chain(rsync_uris(), https_uris(), texts())))


TABLES = [sizes_of_values, sizes_of_signed_data, sizes_of_parts, sizes_of_texts]
