"""The host and port of an http URL: of plain URLs what the URL Standard says, without percent-decoding and without
names beyond ASCII."""
import ipaddress
import re

MOST_URL_BYTES = 2_048
MOST_SITES = 1_024
HTTP_PORT = 80
# the user's data before the last @, the host, and the port; a path, query or fragment follows
AUTHORITY = re.compile(r"http:[/\\]*(?:[^/\\?#]*@)?(?P<host>\[[^\]]*\]|[^:/\\?#]*)(?::(?P<port>\d*))?(?:[/\\?#]|$)",
                       re.IGNORECASE)
FORBIDDEN_IN_HOSTS = re.compile(r"[\x00-\x20\"<>^`{|}%\x7f-\U0010ffff\[\]]")
IPV4_PART = re.compile(r"0x[0-9a-f]*|\d+", re.IGNORECASE)


class BadSite(Exception):
    """The word is no http URL."""


def site_of(word):
    """The host, as a URL writes it, and the port that a word of bytes leads to."""
    if len(word) > MOST_URL_BYTES:
        raise BadSite
    try:
        text = word.decode("utf8")
    except UnicodeDecodeError:
        raise BadSite from None
    found = AUTHORITY.match(re.sub(r"[\t\r\n]", "", text).strip("".join(map(chr, range(33)))))
    if not found or not found["host"]:
        raise BadSite
    port = int(found["port"] or HTTP_PORT)
    if port > 65_535:
        raise BadSite
    return host_of(found["host"]), port


def host_of(text):
    """The host in its one form: an address without leading zeros, a name in lower case."""
    if text.startswith("["):
        try:
            return f"[{ipaddress.IPv6Address(text[1:-1])}]"
        except ipaddress.AddressValueError:
            raise BadSite from None
    if FORBIDDEN_IN_HOSTS.search(text):
        raise BadSite
    parts = text.lower().removesuffix(".").split(".")
    return ipv4_of(parts) if IPV4_PART.fullmatch(parts[-1]) else text.lower()


def ipv4_of(parts):
    """The address of one to four numbers, of which the last fills the bytes that are left."""
    if len(parts) > 4 or not all(IPV4_PART.fullmatch(part) for part in parts):
        raise BadSite
    *firsts, last = map(ipv4_number, parts)
    left = 4 - len(firsts)
    if any(number > 255 for number in firsts) or last >= 256 ** left:
        raise BadSite
    address = sum(number << 24 - 8 * place for place, number in enumerate(firsts)) + last
    return str(ipaddress.IPv4Address(address))


def ipv4_number(text):
    try:
        if text.startswith("0x"):
            return int(text[2:] or "0", 16)
        return int(text, 8) if text.startswith("0") else int(text)
    except ValueError:
        raise BadSite from None
