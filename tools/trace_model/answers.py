"""An audit's report as text and as JSON, with the status that it ends with."""
import json

LAWFUL, BROKEN, WRONG_WORDS, UNREADABLE = 0, 1, 2, 3


def status_of(report):
    if report.fault:
        return UNREADABLE
    return BROKEN if report.violations else LAWFUL


def counted(count, noun):
    return f"{count:,} {noun}" if count == 1 else f"{count:,} {noun}s"


def lawful_line(report):
    text = f"lawful: {counted(report.events, 'event')}, {counted(report.hosts, 'host')}, {report.open:,} still open"
    return text if report.has_waits else f"{text}, waits not told"


def violation_lines(violation, name, shows_state):
    """The lines of a violation in the trace of that name."""
    earlier = violation.finding.earlier
    yield f"{name}:{violation.line}: {violation.event}: {violation.finding.text}"
    if earlier:
        yield f"{name}:{earlier.line}: here {earlier.text}"
    if shows_state:
        yield f"{name}:{violation.line}: {violation.state}"


def text_of(report, name="trace", shows_state=False):
    """What the report is on standard output."""
    found = [line for violation in report.violations for line in violation_lines(violation, name, shows_state)]
    if not report.fault:
        if not found:
            found = [lawful_line(report)]
        if report.passed_by:
            noun = "line" if report.passed_by == 1 else "lines"
            found.append(f"and {report.passed_by} {noun} of connections that were not taken")
    return "".join(f"{line}\n" for line in found)


def told(finding):
    """A finding, as JSON has it."""
    return {"text": finding.text, "earlier": finding.earlier.line if finding.earlier else None}


def json_of(report):
    """The same as one JSON object; nothing if the trace can't be read."""
    if report.fault:
        return ""
    violations = [{"line": one.line, "rule": one.rule, **told(one.finding)} for one in report.violations]
    return json.dumps({"lawful": not violations, "events": report.events, "hosts": report.hosts,
                       "open": report.open, "violations": violations}) + "\n"


def fault_of(report):
    """What the report is on standard error."""
    return f"line {report.fault[0]}: {report.fault[1]}\n" if report.fault else ""
