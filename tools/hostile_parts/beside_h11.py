#!/usr/bin/env python3
"""Compares what our reader says of mutated responses with what another one says: h11 if Python has it, else llhttp by
node. For information alone: they need not agree.

    tools/hostile_parts/beside_h11.py [COUNT [SEED]]

Prints how many agree, and for each way to differ how often it was met, with an example. Where neither is there it says
that it is skipped.
"""
import collections
import json
import os
import shutil
import subprocess
import sys
import tempfile

sys.dont_write_bytecode = True
HERE = os.path.dirname(os.path.abspath(__file__))
sys.path.insert(0, os.path.dirname(HERE))
COUNT, SEED = 20_000, 40
MOST_SHOWN = 160
OK_ENDS = {"whole": "whole", "surplus": "whole", "until-end": "until-end", "more": "more"}

# Reads lines of JSON: the bytes in hex, and whether the request was HEAD. Writes for each the status of the final
# response, how many bytes of its body came, and how it ends. What follows a whole response is not read.
NODE = r"""
const { HTTPParser } = process.binding('http_parser');
const lines = require('fs').readFileSync(0, 'latin1').split('\n');
const said = [];
function read(bytes, isHead) {
    const parser = new HTTPParser();
    parser.initialize(HTTPParser.RESPONSE, {});
    const told = { status: 0, length: 0, end: 'more' };
    let ended = false;
    parser[HTTPParser.kOnHeaders | 0] = () => {};
    parser[HTTPParser.kOnHeadersComplete | 0] = (major, minor, fields, method, url, status) => {
        if (ended) { return 1; }
        const interim = status >= 100 && status < 200 && status !== 101;
        told.interim = interim;
        if (!interim) { told.status = status; }
        if (isHead || status === 101) { return status === 101 ? 2 : 1; }
        return 0;
    };
    parser[HTTPParser.kOnBody | 0] = (piece, offset, length) => {
        if (!ended) { told.length += length === undefined ? piece.length : length; }
    };
    parser[HTTPParser.kOnMessageComplete | 0] = () => {
        if (!told.interim && !ended) { ended = true; told.end = told.ending ? 'until-end' : 'whole'; }
        return 0;
    };
    const executed = parser.execute(bytes, 0, bytes.length);
    if (!ended && executed instanceof Error) {
        told.end = executed.code || executed.message;
    } else if (!ended) {
        told.ending = true;
        parser.finish();
    }
    return [told.status, told.length, told.end];
}
for (const line of lines) {
    if (line) {
        const [hex, isHead] = JSON.parse(line);
        said.push(JSON.stringify(read(Buffer.from(hex, 'hex'), isHead)));
    }
}
process.stdout.write(said.join('\n') + '\n');
"""


def by_h11(responses):
    """What h11 says of each: status, body length, end."""
    import h11

    def read(text, method):
        connection = h11.Connection(our_role=h11.CLIENT, max_incomplete_event_size=16384)
        connection.send(h11.Request(method="HEAD" if method == "Head" else "GET", target="/", headers=[("Host", "a")]))
        connection.send(h11.EndOfMessage())
        status, length, is_ending = 0, 0, False
        connection.receive_data(text)
        while True:
            try:
                event = connection.next_event()
            except h11.RemoteProtocolError as fault:
                return status, length, "more" if is_ending else str(fault)[:60]
            if event is h11.NEED_DATA:
                if is_ending:
                    return status, length, "more"
                is_ending = True
                connection.receive_data(b"")
            elif isinstance(event, h11.Response):
                status = event.status_code
            elif isinstance(event, h11.Data):
                length += len(event.data)
            elif isinstance(event, h11.EndOfMessage):
                return status, length, "until-end" if is_ending else "whole"
            elif event is h11.PAUSED or isinstance(event, h11.ConnectionClosed):
                return status, length, "whole" if status else "more"

    return [read(text, method) for text, method in responses]


def by_llhttp(responses):
    """What node's llhttp says of each."""
    with tempfile.TemporaryDirectory() as room:
        script = os.path.join(room, "read.js")
        with open(script, "w", encoding="utf8") as file:
            file.write(NODE)
        asked = "".join(json.dumps([text.hex(), method == "Head"]) + "\n" for text, method in responses)
        done = subprocess.run(["node", "--no-deprecation", script], input=asked, stdout=subprocess.PIPE, text=True, check=True)
    return [tuple(json.loads(line)) for line in done.stdout.splitlines()]


def other_reader():
    """The other reader's name and what it says; nothing where there is none."""
    try:
        import h11
        return f"h11 {h11.__version__}", by_h11
    except ImportError:
        pass
    if shutil.which("node"):
        version = subprocess.run(["node", "-p", "process.versions.llhttp"], stdout=subprocess.PIPE, text=True).stdout.strip()
        return f"llhttp {version} of node", by_llhttp
    return None


def way_to_differ(ours, theirs):
    """How they differ in the first thing in which they do; nothing where they agree. Of a fault it is asked alone
    whether both find one: the names are each reader's own."""
    (status, length, end), (their_status, their_length, their_end) = ours, theirs
    our_end = OK_ENDS.get(end, "fault")
    other_end = their_end if their_end in OK_ENDS.values() else "fault"
    if our_end != other_end:
        return f"ends: ours {end}, theirs {their_end}"
    if our_end == "fault":
        return None
    if status != their_status:
        return "the status"
    if length != their_length:
        return "the length of the body"
    return None


def compare(count, seed):
    from hostile_parts import fuzzing
    found = other_reader()
    if not found:
        print("skipped: neither h11 nor node is there")
        return
    name, read = found
    lines = list(fuzzing.listed(seed, count))
    said = read([(text, method) for text, method, *_ in lines])
    differing = collections.defaultdict(list)
    for (text, method, status, _framing, length, end), theirs in zip(lines, said, strict=True):
        way = way_to_differ((status, length, end), tuple(theirs))
        if way:
            differing[way].append((len(text), text, method, (status, length, end), theirs))
    agree = len(lines) - sum(map(len, differing.values()))
    print(f"{agree:,} of {len(lines):,} mutated responses: {name} says the same (a fault, or status, length and end)")
    for way, cases in sorted(differing.items(), key=lambda item: -len(item[1])):
        _length, text, method, ours, theirs = min(cases)
        print(f"{len(cases):6} {way}; as {method} {text[:MOST_SHOWN]!r}: ours {ours}, theirs {tuple(theirs)}")


if __name__ == "__main__":
    compare(*(int(word) for word in sys.argv[1:3]), *(COUNT, SEED)[len(sys.argv) - 1:])
