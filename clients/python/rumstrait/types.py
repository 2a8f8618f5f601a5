"""The types of records, by their names (RFC 1035 section 3.2.2 and later RFCs)."""
from typing import Union

NAMES = {
    "A": 1, "NS": 2, "CNAME": 5, "SOA": 6, "PTR": 12, "HINFO": 13, "MX": 15, "TXT": 16, "RP": 17, "AAAA": 28, "LOC": 29, "SRV": 33,
    "NAPTR": 35, "CERT": 37, "DNAME": 39, "DS": 43, "SSHFP": 44, "RRSIG": 46, "NSEC": 47, "DNSKEY": 48, "NSEC3": 50,
    "NSEC3PARAM": 51, "TLSA": 52, "SMIMEA": 53, "CDS": 59, "CDNSKEY": 60, "OPENPGPKEY": 61, "CSYNC": 62, "SVCB": 64, "HTTPS": 65,
    "ANY": 255, "URI": 256, "CAA": 257,
}  # fmt: skip
NUMBERS = range(1 << 16)


def number_of_type(given: Union[int, str]) -> int:
    """Returns the number of a type: of a number itself, of a name, or of `TYPE` and a number (RFC 3597 section 5)."""
    if isinstance(given, str):
        name = given.upper()
        given = NAMES[name] if name in NAMES else int(name[4:]) if name[:4] == "TYPE" and name[4:].isdecimal() else -1
    if given not in NUMBERS:
        raise ValueError("no type of records")
    return given
