"""Opens a certificate and prints what a relying party looks at first, over librpki.so by ctypes alone.

usage: certificate.py FILE      (LD_LIBRARY_PATH names the folder of librpki.so.0.2 where it isn't installed)
"""
import ctypes
import sys
from ctypes import POINTER, Structure, byref, c_bool, c_char_p, c_int32, c_int64, c_size_t, c_uint8, c_uint32, c_void_p

RPKI = ctypes.CDLL("librpki.so.0.2")
TOO_SMALL, CONTEXT, NO_PARENT = 9, 2, ctypes.c_size_t(-1).value
NOT_OF_PROFILE = range(32, 38)  # RPKI_MISSING_COMMON_NAME to RPKI_ATTRIBUTE_NOT_PERMITTED


def struct(name, **members):
    """A struct of rpki.h."""
    return type(name, (Structure,), {"_fields_": list(members.items())})


Span = struct("Span", data=c_void_p, size=c_size_t)  # a pointer into the octets, which have to be kept
Entry = struct("Entry", start=c_size_t, contents=c_size_t, end=c_size_t, parent=c_size_t, number=c_uint32,
               tag_class=c_uint8, constructed=c_bool)
Signed = struct("Signed", data=Span, algorithm=Span, signature=Span, unused=c_uint8, has_parameters=c_bool)
Key = struct("Key", format=c_uint8, unused=c_uint8, bits=Span)
Moment = struct("Moment", seconds=c_int64, year=c_int32, month=c_uint32, day=c_uint32, hour=c_uint32, minute=c_uint32,
                second=c_uint32)
Period = struct("Period", not_before=Moment, not_after=Moment)
Extension = struct("Extension", id=Span, octets=Span, critical=c_bool)
Octets20 = c_uint8 * 20


def check(status):
    if status != 0:
        sys.exit(f"refused {status}")


def call(name, octets, kind):
    """What a call that reads all of the octets writes to `out`."""
    function, out = getattr(RPKI, "rpki_" + name), kind()
    function.argtypes, function.restype = [c_char_p, c_size_t, POINTER(kind)], c_uint8
    check(function(octets, len(octets), byref(out)))
    return out


def index(octets):
    """An entry for each header: first how many there are, then the entries."""
    RPKI.rpki_index.argtypes = [c_char_p, c_size_t, POINTER(Entry), c_size_t, POINTER(c_size_t)]
    RPKI.rpki_index.restype = c_uint8
    count, none = c_size_t(), (Entry * 1)()
    status = RPKI.rpki_index(octets, len(octets), none, 0, byref(count))
    check(0 if status == TOO_SMALL else status)
    entries = (Entry * count.value)()
    check(RPKI.rpki_index(octets, len(octets), entries, count.value, byref(count)))
    return list(entries)


def is_of(name, profile):
    RPKI.rpki_name_inspect.argtypes, RPKI.rpki_name_inspect.restype = [c_char_p, c_size_t, c_uint8, c_bool], c_uint8
    status = RPKI.rpki_name_inspect(name, len(name), profile, True)
    check(0 if status in NOT_OF_PROFILE else status)
    return "no" if status else "yes"


def dotted(contents):
    """An object identifier (X.690 8.19)."""
    arcs, arc = [], 0
    for octet in contents:
        arc = arc * 128 + octet % 128
        if octet < 128:
            arcs += [arc] if arcs else [min(arc // 40, 2), arc - 40 * min(arc // 40, 2)]
            arc = 0
    return ".".join(map(str, arcs))


def main(path):
    with open(path, "rb") as file:
        octets = file.read()
    signed, entries = call("signed_data", octets, Signed), index(octets)
    children = [[] for _ in entries]
    for number, entry in enumerate(entries):
        if entry.parent != NO_PARENT:
            children[entry.parent].append(number)

    def value(number):
        return octets[entries[number].start : entries[number].end]

    def contents(number):
        return octets[entries[number].contents : entries[number].end]

    def is_context(number, tag):
        entry = entries[number]
        return (entry.tag_class, entry.number, entry.constructed) == (CONTEXT, tag, True)

    def show_name(what, name):
        text = contents(children[children[children[name][0]][0]][1]).decode()
        print(f"{what}: {text} (RPKI {is_of(value(name), 0)}, router {is_of(value(name), 1)})")

    def show_time(what, at):
        date, clock = f"{at.year:04}-{at.month:02}-{at.day:02}", f"{at.hour:02}:{at.minute:02}:{at.second:02}"
        print(f"{what}: {date}T{clock}Z")

    print(f"certificate: {len(octets)} octets, {len(entries)} headers")
    parts = children[children[0][0]]
    has_version = is_context(parts[0], 0)
    print("version:", contents(children[parts[0]][0])[-1] + 1 if has_version else 1)
    serial, _, issuer, validity, subject, key, *more = parts[has_version:]
    print("serial number:", bytes(call("serial", value(serial), Octets20)).lstrip(b"\0").hex().upper() or "00")
    period = call("validity", value(validity), Period)
    show_time("not before", period.not_before)
    show_time("not after", period.not_after)
    show_name("issuer", issuer)
    show_name("subject", subject)
    parts = call("public_key", value(key), Key)
    print(f"public key: {['RSA', 'ECDSA P-256'][parts.format]}, {parts.bits.size} octets")
    print("key identifier:", bytes(call("key_identifier", value(key), Octets20)).hex().upper())
    for around in more:
        for number in children[children[around][0]] if is_context(around, 3) else []:
            extension = value(number)
            found = call("extension", extension, Extension)
            critical = "critical" if found.critical else "not critical"
            identifier = dotted(ctypes.string_at(found.id.data, found.id.size))
            print(f"extension {identifier}: {critical}, {found.octets.size} octets")
    start = ctypes.cast(octets, c_void_p).value
    print("to verify:")
    print(f"signed: {signed.data.size} octets at {signed.data.data - start}")
    parameters = "with" if signed.has_parameters else "without"
    print(f"algorithm: {signed.algorithm.size} octets at {signed.algorithm.data - start}, {parameters} parameters")
    print(f"signature: {signed.signature.size} octets at {signed.signature.data - start}")


if __name__ == "__main__":
    main(sys.argv[1])
