"""Names (RFC 5280 4.1.2.4) and general names (RFC 5280 4.2.1.6), from the left."""
from strict import Octets, Wrong, are_values, identifier, is_identifier, need


def attribute(relative):
    parts = relative.take(0x30)
    identifier(parts)
    need(not parts.is_empty())
    parts.nested()
    parts.end()


def relative_name(names):
    attributes = names.take(0x31)
    need(not attributes.is_empty())
    attributes.each(attribute)


def name(octets):
    """A name at the front: relative names, of attributes, one at least of each."""
    names = octets.take(0x30)
    need(not names.is_empty())
    names.each(relative_name)


def directory_name(octets):
    name(octets)
    octets.end()


def holds(octets, judge):
    """Whether octets are what this reads."""
    try:
        judge(octets)
    except Wrong:
        return False
    return True


FORMS = {
    (0, True): lambda it: holds(it, are_values), (3, True): lambda it: holds(it, are_values),
    (5, True): lambda it: holds(it, are_values), (4, True): lambda it: holds(it, directory_name),
    (1, False): lambda it: it.octets.isascii(), (2, False): lambda it: it.octets.isascii(),
    (7, False): lambda it: len(it.octets) in (4, 16), (8, False): lambda it: is_identifier(it.octets),
}


def general_name(octets):
    """The text of the URI at the front; None of another general name."""
    if octets.octets[octets.place:octets.place + 1] in (b"\x86", b"\xa6"):
        text = octets.take(0x86)
        need(text.octets.isascii())
        return text
    (kind, constructed, number), inside = octets.value()
    need(kind == 2 and FORMS.get((number, constructed), lambda _: False)(inside))
    return None


def is_general_name(octets):
    """Whether octets begin with a general name."""
    return holds(Octets(octets), general_name)
