"""The meaning of each printed line, in words."""

from .dump import around
from .errors import plural
from .faults import where_and_why
from .references import References
from .replies import REASONS
from .steps import STEPS, is_repeat


def explained(data, sheet, lines, end):
    """Each printed line, followed by its meaning. Where a number ends the reading, a row below shows its bytes."""
    references = References()
    rows = [(" ".join(map(str, line)), meaning(sheet, line, references)) for line in lines]
    if sheet.fault and sheet.fault.number and lines[-1].record == sheet.fault.record:
        rows.append(("", around(data, sheet.fault.number)))
    rows.append((" ".join(["end", *map(str, end)]), end_in_words(end)))
    width = max(len(printed) for printed, _ in rows)
    return "".join(f"{printed:<{width}}   {words}\n" for printed, words in rows)


def meaning(sheet, line, references):
    if sheet.fault and line.record == sheet.fault.record:
        return reading_ends(sheet.fault, line)
    if line.record == 0:
        return opening_in_words(sheet, line.reply)
    record = sheet.records[line.record - 1]
    if line.reply != 0:
        return f"{doing_in_words(record)}: refused, {reason(sheet, line.reply)}"
    references.accept(record, line.session)
    return f"{doing_in_words(record)}: {result_in_words(record, line.session, references)}"


def reading_ends(fault, line):
    """Where and why the reading ends; first what the line says differently."""
    ends = where_and_why(fault)
    if line.reply != fault.reply:
        return f"the reply number is {line.reply}, but it should be {fault.reply}; {ends}"
    if line.session != fault.session:
        return f"the last column is {line.session}, but it should be {fault.session}; {ends}"
    return ends


def reason(sheet, reply):
    return REASONS[sheet.edition.room].get(reply, f"with {reply}, a number that a step of a sheet cannot get")


def opening_in_words(sheet, reply):
    if reply != 0:
        return f"a {hall_in_words(sheet)}: refused, {reason(sheet, reply)}; nothing more is read"
    return f"a {hall_in_words(sheet)} opens"


def hall_in_words(sheet):
    """'hall of 2 desks, 1 screen per desk, 3 positions'"""
    desks, screens, positions = sheet.hall
    size = f"{plural(desks, 'desk')}, {plural(screens, 'screen')} per desk, {plural(positions, 'position')}"
    return f"{sheet.edition.room.title} of {size}"


def doing_in_words(record):
    desk, *rest = record.numbers
    name = STEPS[record.code].name
    if name == "take":
        return f"desk {desk} takes position {rest[1]} onto screen {rest[0]}"
    if name == "drop":
        return f"desk {desk} drops screen {rest[0]}"
    if name == "swap":
        to = f"session {rest[1]}" if rest[1] else "nothing"
        return f"desk {desk} swaps position {rest[0]} to {to}"
    return f"desk {desk} {name}s"


def result_in_words(record, session, references):
    name = STEPS[record.code].name
    if is_repeat(record, session):
        return f"it already holds {session}, nothing changes" if session else "it is already empty, nothing changes"
    if name == "take":
        return f"it shows {session}"
    if name == "drop":
        return f"it showed {session}"
    if name == "swap":
        return f"was {session}, now owed" if session else "was empty, nothing is owed"
    if name == "retire":
        return f"{session} now waits on its list"
    return handed_back_in_words(session, references) if session else "nothing is handed back"


def handed_back_in_words(session, references):
    """A hand-back gives back one retirement. A session may be closed once nothing references it."""
    where = references.where(session)
    rest = f"it is still {where} and must stay open" if where else "nothing references it now, so it may be closed"
    return f"one retirement of {session} is handed back; {rest}"


def end_in_words(end):
    return (
        f"{plural(end.accepted, 'step')} accepted, {end.refused:,} refused by the board, "
        f"{plural(end.handed_back, 'session')} handed back"
    )
