"""Variants of certificates, of what they say of resources (RFC 6487 4.8.10, 4.8.11, RFC 8360 4.2.2)."""
from der import sequence
from makers import resources
from makers.certificate import anchor_with, both, put, router, version_2
from makers.x509 import ADDRESSES, ADDRESSES_V2, NUMBERS, NUMBERS_V2

MALFORMED = "RFC 6487 4.8.10, 4.8.11: resources that are not in canonical form"
NOT_ITS_OWN = "RFC 8630 2.3, RFC 8209 3.1.3.5: resources of the issuer"

# A name, the change, and the lines that are expected.
VARIANTS = [
    *((f"addresses: {name}", put(ADDRESSES, octets), {"inspect_ca": MALFORMED})
      for name, octets in resources.MALFORMED_ADDRESSES),
    *((f"numbers: {name}", put(NUMBERS, octets), {"inspect_ca": MALFORMED})
      for name, octets in resources.MALFORMED_NUMBERS),
    ("inherited addresses", put(ADDRESSES, resources.INHERITED_ADDRESSES), {"inspect_ca": "ok"}),
    ("inherited numbers", put(NUMBERS, resources.INHERITED_NUMBERS), {"inspect_ca": "ok"}),
    ("malformed addresses of RFC 8360", both(version_2, put(ADDRESSES_V2, sequence())), {"inspect_ca": MALFORMED}),
    ("malformed numbers of RFC 8360", both(version_2, put(NUMBERS_V2, sequence())), {"inspect_ca": MALFORMED}),
    ("a trust anchor that inherits addresses", anchor_with(put(ADDRESSES, resources.INHERITED_ADDRESSES)),
     {"inspect_ta": NOT_ITS_OWN}),
    ("a trust anchor that inherits numbers", anchor_with(put(NUMBERS, resources.INHERITED_NUMBERS)),
     {"inspect_ta": NOT_ITS_OWN}),
    ("a router that inherits", both(router, put(NUMBERS, resources.INHERITED_NUMBERS)),
     {"inspect_router": NOT_ITS_OWN}),
]
