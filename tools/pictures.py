"""What is wrong with the picture of a script: it is read by another XML parser, and its marks are counted."""
import os
import re
import subprocess
import tempfile
import time
import xml.etree.ElementTree as xml
from collections import Counter

SVG = "{http://www.w3.org/2000/svg}"
# all that a picture is made of; none of them runs anything or takes anything from elsewhere
ELEMENTS = {"svg", "title", "style", "g", "rect", "circle", "line", "text"}
ATTRIBUTES = {"class", "x", "y", "x1", "y1", "x2", "y2", "cx", "cy", "r", "width", "height", "viewBox", "role",
              "text-anchor"}
ELSEWHERE = re.compile(r"url\(|@import")
# which lines of a transcript have which marks
LINES = {"connection": ("opened",), "leased": ("opened", "leased"), "idle": ("returned",), "closed": ("closed",),
         "waiter": ("waits",)}
# a picture of more events has not all marks
MOST_EVENTS = 10_000
EVENTS = ("opened", "leased", "returned", "closed", "waits", "left", "limit")
# how a script ends that did not begin, so that there is no picture
NOT_BEGUN = re.compile(rb"line 0: (cannot read|script too long)\n")


def marks_of(transcript):
    """How many marks of each class the picture has to have; nothing if not all events are shown."""
    words = Counter(line.split(" ", 1)[0] for line in transcript.decode().splitlines())
    if sum(words[word] for word in EVENTS) > MOST_EVENTS:
        return {}
    return {mark: sum(words[word] for word in lines) for mark, lines in LINES.items()}


def foreign(root):
    """What of a picture is neither a shape nor a text, or nothing."""
    for element in root.iter():
        name = element.tag.removeprefix(SVG)
        if name not in ELEMENTS or not set(element.attrib) <= ATTRIBUTES:
            return f"an element {name} with {sorted(element.attrib)}"
        if name == "style" and ELSEWHERE.search(element.text):
            return "a style that takes something from elsewhere"
    return None


def wrong_marks(root, transcript):
    """What is wrong with the marks of a picture, or nothing."""
    marks = Counter(element.get("class", "").split(" ", 1)[0] for element in root.iter())
    for mark, count in marks_of(transcript).items():
        if marks[mark] != count:
            return f"{marks[mark]} marks {mark} for {count} events"
        if not all(element.find(f"{SVG}title") is not None
                   for element in root.iter() if element.get("class", "").split(" ", 1)[0] == mark):
            return f"a mark {mark} has no title"
    return None if marks["legend"] == 1 else "it has no legend"


def wrong_drawing(path, transcript, said):
    """What is wrong with the picture in that file, or nothing."""
    if os.path.getsize(path) == 0:
        return None if NOT_BEGUN.fullmatch(said) else "the picture is empty"
    try:
        root = xml.parse(path).getroot()
    except xml.ParseError as error:
        return f"the picture is no XML: {error}"
    return foreign(root) or wrong_marks(root, transcript)


def wrong_picture(program, script, transcript, latest):
    """What is wrong with a run of that script that draws a picture, or nothing."""
    with tempfile.TemporaryDirectory() as folder:
        path = os.path.join(folder, "picture.svg")
        try:
            done = subprocess.run([program, "script", "--picture", path], input=script, capture_output=True,
                                  timeout=max(latest - time.monotonic(), 0))
        except subprocess.TimeoutExpired:
            return "the part did not end in time"
        if done.stdout != transcript:
            return "with a picture it writes another transcript"
        if not os.path.exists(path):
            return f"there is no picture: status {done.returncode}"
        return wrong_drawing(path, transcript, done.stderr)
