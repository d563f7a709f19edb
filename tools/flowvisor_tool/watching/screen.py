"""The state as plain text, for a terminal."""
import re
import textwrap

INDENT = "  "
# A narrower terminal gets rows of so many columns.
LEAST_COLUMNS = 20


class Wrapper(textwrap.TextWrapper):
    """Breaks rows at blanks, and the fields of a packet or a match behind their commas: no number is cut that has room."""

    wordsep_simple_re = re.compile(r"([\t\n\v\f\r ]+|(?<=,)(?=[a-z]))")


def screen_of(state, columns, lines):
    """The text of one screen: rows that are too long are wrapped, and lines that don't fit are given by their number."""
    shown = [line for row in rows_of(state) for line in lines_of(row, columns)]
    if len(shown) > lines:
        shown = shown[: lines - 1] + [f".. and {len(shown) - lines + 1} lines more"[:columns]]
    return "\n".join(shown)


def lines_of(row, columns):
    """The lines of a row: where it is too long it goes on in lines that are indented further."""
    indent = row[: len(row) - len(row.lstrip())] + 2 * INDENT
    return Wrapper(max(columns, LEAST_COLUMNS), subsequent_indent=indent, break_on_hyphens=False).wrap(row) or [""]


def rows_of(state):
    """All rows."""
    capture = state["capture"]
    yield f"{state['policy']}  {state['time']}  {number(capture['packets'])} packets{left_out(capture)}"
    for switch in state["switches"]:
        yield ""
        yield from switch_rows(switch)
    for stray in state["strays"]:
        yield ""
        yield f"{stray['name']} ({stray['controller']}), for a switch that isn't known yet: {connection(stray)}"
    if not state["switches"]:
        yield ""
        yield "no switch has connected"
    yield ""
    for time, text in reversed(state["happenings"]):
        yield f"{time[11:]} {text}"


def left_out(capture):
    """What couldn't be read, where there is any."""
    parts = [
        f"{number(capture[key])} {words}"
        for key, words in (
            ("missing", "bytes missing"), ("unread", "bytes not understood"), ("unreadable", "packets unreadable"),
            ("forgotten", "switches forgotten"),
        )
        if capture[key]
    ]
    return "".join(f", {part}" for part in parts)


def switch_rows(switch):
    """The rows of a switch."""
    yield f"switch {switch['name']}  {switch['address'] if switch['known'] else 'its datapath id is not known'}  {connection(switch)}"
    yield f"{INDENT}from it {rates(switch['sent'])}   to it {rates(switch['got'])}"
    if switch["nobody"]:
        yield f"{INDENT}packets for nobody: {number(switch['nobody'])}, the last {switch['last_nobody']}"
    if switch["errors"]:
        yield f"{INDENT}errors of it: {number(switch['errors'])}"
    for one in switch["slices"]:
        yield from slice_rows(one)


def slice_rows(one):
    """The rows of a slice."""
    yield f"{INDENT}{one['name']}  {one['controller']}  {connection(one)}"
    if not one["connections"]:
        return
    yield f"{2 * INDENT}from it {rates(one['sent'])}   to it {rates(one['got'])}"
    refused = sum(count for _code, count in one["refused"])
    codes = ", ".join(f"{number(count)} {code}" for code, count in one["refused"])
    least = "at least " if one["entries_at_least"] else ""
    yield (
        f"{2 * INDENT}flow-mods {number(one['flow_mods'])}, as {number(one['pieces'])} to the switch; "
        f"messages refused {number(refused)}{f' ({codes})' if codes else ''}; "
        f"entries {least}{one['entries']} of {one['quota']}; rate {one['rated']} of {one['rate']}/s"
    )
    if one["refusals"]:
        yield f"{2 * INDENT}last refused: {one['refusals'][-1][1]}"


def connection(party):
    """Whether a party is connected, since when, and why not."""
    if not party["connections"]:
        return f"down: {party['reason']}"
    since = f"since before {party['since'][11:19]}" if party["late"] else f"since {party['since'][11:19]}"
    text = f"{'up' if party['up'] else 'down'} {since} ({duration(party['seconds'])})"
    return f"{text}: {party['reason']}" if party["reason"] else text


def duration(seconds):
    """Some seconds, as people say it."""
    minutes, seconds = divmod(seconds, 60)
    hours, minutes = divmod(minutes, 60)
    return f"{hours}h{minutes:02d}m" if hours else f"{minutes}m{seconds:02d}s" if minutes else f"{seconds}s"


def rates(pairs):
    """Messages a second, all and by type."""
    total = sum(count for _name, count in pairs)
    types = ", ".join(f"{name} {number(count)}" for name, count in pairs)
    return f"{number(total)}/s" + (f" ({types})" if types else "")


def number(count):
    """A number, its digits in threes."""
    return f"{count:,}"
