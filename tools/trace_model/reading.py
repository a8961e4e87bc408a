"""Reads a line of a trace by its form alone."""
from trace_model import lines

MOST_LINE_BYTES = 2_304
# of a host's or a total limit, and in place of 0
MOST_LIMIT = 65_535
KINDS = ("keep", "close", "old", "old-keep", "eof", "cut", "surplus")
CAUSES = ("cut", "forbidden", "not-persistent", "too-old", "host-room", "total-room", "cache-full", "dropped",
          "withdrawn", "pruned")
# the first words of replies in a transcript
REPLIES = (b"claimed", b"still", b"host", b"refused")


class Unreadable(Exception):
    """The trace can't be read on, for this reason."""


class WrongForm(Exception):
    """A word is missing, one too many, or not the one that belongs there."""


class Words:
    """The words of a line, taken from the front."""

    def __init__(self, words):
        self.left = list(words)

    def take(self):
        if not self.left:
            raise WrongForm
        return self.left.pop(0)

    def number(self, bits):
        return number_of(self.take(), bits)

    def text(self, text):
        if self.take() != text:
            raise WrongForm

    def one_of(self, names):
        word = self.take().decode("latin1")
        if word not in names:
            raise WrongForm
        return word

    def connection(self):
        """The host and the number of `H.C`."""
        host, dot, number = self.take().partition(b".")
        if not dot:
            raise WrongForm
        return number_of(host, 32), number_of(number, 64)

    def moment(self):
        self.text(b"at")
        return self.number(64)

    def end(self):
        if self.left:
            raise WrongForm


def number_of(word, bits):
    """The number that the word is in decimal digits."""
    if not word or word.strip(b"0123456789") or int(word) >= 1 << bits:
        raise WrongForm
    return int(word)


def order(words):
    words.text(b"host")
    return lines.OrderHost()


def limits(words):
    return lines.Limits(words.number(32), words.number(32), words.number(32))


def site(words):
    return lines.Site(words.take())


def rest(_):
    return lines.Rest()


def get(words):
    transfer, host, lane = words.number(64), words.number(32), words.number(32)
    words.moment()
    options = {}
    while words.left:
        name = words.one_of(("age", "life", "fresh", "forbid"))
        if name in options:
            raise WrongForm
        options[name] = words.number(64) if name in ("age", "life") else True
    want = lines.Want(transfer, lane, options.get("age", lines.DEFAULT_AGE), options.get("life", lines.DEFAULT_LIFE),
                      "fresh" in options, "forbid" in options)
    return lines.Get(host, want)


def claim(words):
    words.number(64)
    return lines.Asks(words.number(32))


def back(words):
    transfer, host, kind = words.number(64), words.number(32), words.one_of(KINDS)
    words.moment()
    return lines.Back(host, transfer, kind)


def drop(words):
    words.number(64)
    host = words.number(32)
    words.moment()
    return lines.Asks(host)


def prune(words):
    words.number(64), words.number(64), words.moment()
    return lines.Asks(None)


def look(words):
    return lines.Asks(words.number(32))


def upkeep(_):
    return lines.Asks(None)


def start(kind, to):
    """The form of a line of a connection and a transfer."""
    def form(words):
        host, connection = words.connection()
        words.text(to)
        transfer = words.number(64)
        return kind(host, words.moment(), connection, transfer)
    return form


def closed(words):
    host, connection = words.connection()
    cause = None if words.left[:1] == [b"at"] else words.one_of(CAUSES)
    return lines.Closed(host, words.moment(), connection, cause)


def queue(kind):
    """The form of a line of a waiter."""
    def form(words):
        transfer = words.number(64)
        words.text(b"host")
        host = words.number(32)
        return kind(host, words.moment(), transfer)
    return form


def limit(words):
    host, most = words.number(32), words.number(32)
    return lines.NewLimit(host, words.moment(), most or MOST_LIMIT)


FORMS = {
    b"order": order, b"limits": limits, b"site": site, b"rest": rest,
    b"get": get, b"claim": claim, b"back": back, b"drop": drop, b"leave": drop, b"prune": prune, b"look": look,
    b"upkeep": upkeep,
    b"opened": start(lines.Opened, b"for"), b"leased": start(lines.Leased, b"to"),
    b"returned": start(lines.Returned, b"by"), b"closed": closed,
    b"waits": queue(lines.Waits), b"left": queue(lines.Left), b"limit": limit,
}


def words_of(text):
    """The words of a line without its line end: spaces alone part them."""
    return [word for word in text.split(b" ") if word]


def read_line(text):
    """The value of a line, without its line end; nothing if the line is passed over."""
    if len(text) > MOST_LINE_BYTES:
        raise Unreadable("line too long")
    words = words_of(text)
    if text.startswith(b"#") or not words or words[0] in REPLIES or words == [b"upkeep", b"0"]:
        return None
    if words[0] not in FORMS:
        raise Unreadable("unknown command")
    others = Words(words[1:])
    try:
        line = FORMS[words[0]](others)
        others.end()
    except WrongForm:
        raise Unreadable("wrong form") from None
    return line


def lines_of(stream):
    """The lines of a stream of bytes, without their line ends."""
    for text in stream:
        yield text[:-2] if text.endswith(b"\r\n") else text[:-1] if text.endswith(b"\n") else text
