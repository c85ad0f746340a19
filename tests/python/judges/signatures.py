"""Whether octets are a signature by RSA with SHA-256 (RFC 8017 8.2.2), by Python's numbers."""
from makers.rsa import encoded


def answer(modulus, exponent, message, signature):
    """What the definition says, of the octets of a modulus."""
    number = int.from_bytes(modulus, "big")
    if modulus[:1] == b"\0" or not 2048 <= number.bit_length() <= 4096 or number % 2 == 0:
        return "rejected key"
    if exponent % 2 == 0 or exponent == 1 or exponent >= 2**64:
        return "rejected key"
    power = pow(int.from_bytes(signature, "big"), exponent, number)
    well = len(signature) == len(modulus) and int.from_bytes(signature, "big") < number
    well = well and power == int.from_bytes(encoded(len(modulus), message), "big")
    return "valid" if well else "invalid"
