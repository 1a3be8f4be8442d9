"""All that players read: the replies to their mail, and the other letters of the office."""

from __future__ import annotations

import textwrap
from collections.abc import Sequence

from office.mail.notes import Change
from office.orders.faults import LineFault, Refusal

WIDTH = 76

# Faults of a line (docs/PLAYER.md, "The answer")

FAULTS = {
    LineFault.NO_UNIT: "no line UNIT without a fault is above this order, or the FORM around it has a fault.",
    LineFault.UNKNOWN_ORDER: "the first word is no order, or isn't written whole.",
    LineFault.BAD_NUMBER: "a number is needed here, or this one is out of its range.",
    LineFault.UNKNOWN_THING: ("the world has no item, skill or kind of this name. "
                              "After NAME comes UNIT, FACTION, BUILDING or SHIP."),
    LineFault.MISSING_WORD: "the line ends too early: a word is missing.",
    LineFault.BAD_BYTE: ("a letter or sign isn't allowed, also in a comment. "
                         "Only English letters, digits and the signs of a US keyboard are."),
    LineFault.BAD_ALIAS: "the word after FORM or NEW is no number from 1 to 9999, or an earlier FORM has it.",
    LineFault.NESTED_FORM: "this FORM is inside the block of another one: an END is missing above it.",
    LineFault.END_ALONE: "this END has no FORM. (The line below your last order is #END.)",
    LineFault.BAD_DIRECTION: "the direction is none of NORTH, SOUTH, EAST and WEST.",
    LineFault.BAD_NAME: "the name is empty, longer than 40 characters, or begins or ends with a space.",
}
OTHER_FAULT = "the program can't read this line."

# Refusals (docs/PLAYER.md, "The answer", and docs/MODERATOR.md, "Refusals")

REFUSALS = {
    Refusal.BAD_NAME: ('A name has 1 to 40 characters of a US keyboard but no ", '
                       "and neither begins nor ends with a space."),
    Refusal.BAD_PASS_TEXT: "A pass text has 1 to 40 characters of a US keyboard, and no space.",
    Refusal.NAME_TAKEN: "Another faction has joined under this name.",
    Refusal.FULL: "No more factions can join.",
    Refusal.NO_FACTION: "No faction has this number. Your report has your number in its first line.",
    Refusal.WRONG_PASS: "The pass text is a wrong one. Capitals count.",
    Refusal.GONE: "Your faction has no unit left, and is out of the game.",
    Refusal.TOO_LONG: "The text has more than 65,536 bytes. Leave out your letter, and long comments.",
    Refusal.NO_HEADER: "No line begins with #ATLANTIS.",
    Refusal.BAD_HEADER: "After #ATLANTIS comes the number of your faction, from 1 to 9999.",
    Refusal.WRONG_FACTION: "The number after #ATLANTIS is another faction's.",
    Refusal.WRONG_MONTH: "This month isn't the one after the month that was closed last.",
    Refusal.MONTH_LIMIT: "9,999 months are closed. The campaign is at its end.",
}

# What a mail program changed

CHANGES = {
    Change.QUOTES: 'curly quotes became " and \'',
    Change.DASHES: "long dashes became - or --",
    Change.ELLIPSES: "a sign of three dots became ...",
    Change.SPACES: "no-break spaces became spaces",
    Change.HIDDEN: "signs that nobody sees were taken out",
    Change.FLOWED: "lines that your mail program broke were joined",
    Change.HTML: "your mail has its orders in HTML alone. They were taken from there. Better send plain text",
    Change.ATTACHMENT: "the orders were taken from an attached file",
    Change.OTHER_ORDERS: "an attached file has a line #ATLANTIS too. It was left out, since the mail itself has one",
    Change.QUOTED_ORDERS: "your mail has a line #ATLANTIS only in the text of another message, which never counts",
    Change.FORWARDED: "a forwarded message was left out: only your own text counts",
    Change.SIGNED: "the signature of PGP or S/MIME was left out, and not checked",
    Change.CHARSET: "your mail names another code for its letters than it has, so they were guessed",
    Change.WINMAIL: "the text was taken from winmail.dat. Better send plain text",
    Change.WINMAIL_UNREAD: "the file winmail.dat of Outlook was left out. Better send plain text",
    Change.ENCRYPTED: "an encrypted part can't be read, and was left out",
    Change.CUT_BYTES: "your mail is too long. What comes after the first million bytes was left out",
    Change.CUT_LINES: "your mail has too many lines. What comes after the first 10,000 was left out",
    Change.CUT_PARTS: "your mail has too many parts. Some were left out",
}

# Warnings


def unit_in_words(number: int, is_new: bool) -> str:
    return f"the new unit of FORM {number}" if is_new else f"unit {number}"


def replaces(line: int, verb: str, earlier: int, earlier_verb: str, unit: str, is_month_long: bool) -> str:
    last = "one order that takes the month, the last" if is_month_long else f"one {verb}, the last"
    return f"line {line} {verb} replaces line {earlier} {earlier_verb}: {unit} carries out {last}."


def extra_words(line: int, verb: str, words: str) -> str:
    return f"line {line} {verb}: the program passes over `{words}`."


def rest_of_comment(line: int, verb: str, earlier: int) -> str:
    return (f"line {line} {verb} may be the rest of the comment in line {earlier}, "
            "which your mail program broke in two. It counts as an order.")


def quits(line: int) -> str:
    return f"line {line} QUIT takes your whole faction out of the game when the month is closed."


def form_without_end(line: int, last: int) -> str:
    if last == line:
        return f"line {line} FORM has no END."
    lines = f"line {last} is" if last == line + 1 else f"lines {line + 1} to {last} are"
    return f"line {line} FORM has no END: {lines} for the new unit."


def not_in_report(line: int, unit: int) -> str:
    return f"line {line} UNIT {unit}: your last report has no unit {unit} of yours."


def no_form(line: int, alias: int) -> str:
    return f"line {line} names NEW {alias}, but this mailing has no FORM {alias}."


def without_orders(units: Sequence[int], more: int) -> str:
    if len(units) == 1 and not more:
        return f"unit {units[0]} has no order. Its people work for wages."
    *first, last = [*map(str, units), *([f"{more} more"] if more else [])]
    return f"units {', '.join(first)} and {last} have no order. Their people work for wages."


NO_END = "there is no line #END. Write it below your last order: what comes below it never counts."
NO_END_SIGNATURE = ("there is no line #END, so your orders end at what looks like a signature or a letter. "
                    "Write #END below your last order: all lines above it are read, and none below it.")
NO_END_QUOTE = ("there is no line #END, so your orders end at the text of another message. "
                "Write #END below your last order.")
NO_END_HEADER = "there is no line #END, so your orders end at the next line #ATLANTIS."
def below_end(line: int) -> str:
    return f"line {line} reads as an order, but it is below #END, so it was not read."


QUOTED_INSIDE = "lines of another message between your orders were left out, since they begin with >."


def more_warnings(count: int) -> str:
    return f"and {count} more like these."

# The reply


def counts(faction: int, month: int, orders: int, faults: int, warnings: int) -> str:
    parts = [_plural(orders, "order"), _plural(faults, "line") + " with a fault", _plural(warnings, "warning")]
    shown = [parts[0], *(part for part, count in zip(parts[1:], (faults, warnings)) if count)]
    return f"Your mailing for month {month} was taken. Faction {faction}: {', '.join(shown)}."


def replaced(when: str, before: int, now: int) -> str:
    return f"This replaces your mailing of {when}: {_plural(before, 'order')}, now {now}. Nothing of that one counts."


def send_again(deadline: str | None, has_faults: bool) -> str:
    until = f" until {deadline}" if deadline else " until the month is closed"
    what = "Correct them and send the whole mailing again" if has_faults else "You may send another mailing"
    return f"{what}{until}. It replaces this one completely."


FAULTS_BELOW = "The program could not read the lines with ^^ below them."
LINES_TAKEN = "These lines were taken, with the numbers that they have in your mail:"
NO_LINES = "There is no line below #ATLANTIS, so nothing was ordered."
LINES_LEFT_OUT = "These lines were left out:"
MORE_LEFT_OUT = "(There may be more.)"
WARNINGS = "Look at these. They may be what you mean:"
CHANGED = "What was changed or left out on the way:"
PASS_TEXT_LEFT_OUT = "(your pass text is not shown)"


def fault_line(number: int, name: str, sentence: str) -> str:
    return f"^^ {number} {name}: {sentence}" if name else f"^^ {number}: {sentence}"


def not_shown(first: int, last: int, faults: int) -> str:
    of_these = f"{_plural(faults, 'line')} of these {'has' if faults == 1 else 'have'} a fault."
    return f"Lines {first} to {last} are not shown here. {of_these}"


def in_lines(numbers: Sequence[int], most: int) -> str:
    """The numbers of lines in brackets, '' for none."""
    if not numbers:
        return ""
    word = "line" if len(numbers) == 1 else "lines"
    return f" ({word} {', '.join(map(str, numbers[:most]))}{' ..' if len(numbers) > most else ''})"


def _plural(count: int, word: str) -> str:
    return f"{count} {word}" if count == 1 else f"{count} {word}s"

# Mail that was not taken


def refusal_sentence(number: int) -> str:
    """What a refusal of the program means; its number alone where the office doesn't know it."""
    return REFUSALS[Refusal(number)] if number in set(Refusal) else f"The program refuses it ({number})."


def reply_subject(faction: int, month: int, reason: str, subject: str) -> str:
    """The subject of a reply: what became of the mail, and then its own subject."""
    what = {"NONE": f"orders of faction {faction} for month {month} taken",
            "NO_HEADER": "no orders found",
            "LATE": f"orders of faction {faction} came late",
            "CUT": f"orders of faction {faction} are too long",
            "OLDER": f"older orders of faction {faction} are held",
            "TWO_BLOCKS": f"two mailings for faction {faction} are held",
            "NOT_REAL": f"orders of faction {faction} are held"}.get(reason, f"orders of faction {faction} NOT taken")
    return f"{what} (Re: {subject})" if subject else what


def not_taken(reason: str, refusal: int, faction: int, came: str, sender: str, deadline: str) -> str:
    """Why a mail, or a block of orders in it, was not taken, and what the player can do."""
    what = "A mail" if reason == "NO_HEADER" else f"A mail with orders for faction {faction}"
    head = f"{what} came on {came}" + (f" from {sender}." if sender else ".")
    paragraphs = [head, *_why_not(reason, refusal, faction, deadline)]
    return "\n\n".join(textwrap.fill(each, WIDTH, break_long_words=False, break_on_hyphens=False)
                       for each in paragraphs) + "\n"


HELD = "It is held: the moderator decides whether it counts. The mailing that was taken before it still counts."


def _why_not(reason: str, refusal: int, faction: int, deadline: str) -> list[str]:
    """The paragraphs of the reason: what is wrong, and what to do."""
    with_pass = f"write your pass text on the first line, as #ATLANTIS {faction} PASSTEXT."
    match reason:
        case "NO_HEADER":
            return ["No line of it begins with #ATLANTIS, so nothing was taken as orders. If it was a letter, the moderator "
                    f"will read it. If it was meant as orders, send them again below a line #ATLANTIS {faction}, and end "
                    "them with a line #END."]
        case "LATE" if deadline:
            return [f"That is after the deadline ({deadline}).", HELD]
        case "LATE":
            return ["That is before your last report went out, so it may be for the month that is closed.", HELD]
        case "CUT":
            return ["It is too long: its end was not read, and there may be orders of yours.", HELD]
        case "OLDER":
            return ["It is older than the mailing that counts.", HELD]
        case "TWO_BLOCKS":
            return ["It has two lines #ATLANTIS for your faction, so it isn't clear which orders you mean.", HELD,
                    "Or send one mail with the orders that you mean."]
        case "NOT_REAL":
            return ["Our mail server can't say that the sender's address is real.", HELD, f"Or {with_pass}"]
        case "STRANGER":
            return ["The address isn't yours, and the mail has no pass text, so its orders were NOT taken.",
                    f"If it was you: write from your own address, or {with_pass}"]
        case "WRONG_PASS":
            return ["The pass text on its line #ATLANTIS is wrong, so its orders were NOT taken.",
                    "If it was you: capitals count. The moderator can give you a new pass text."]
        case "QUIT":
            return ["It has the order QUIT, which ends your faction. QUIT counts only with the pass text, so NOTHING of "
                    "this mail was taken.", f"If you mean it, {with_pass}"]
    return [refusal_sentence(refusal), "Its orders were NOT taken. The mailing that was taken before still counts."]


# Other letters


def refused_by_moderator(faction: int, came: str, why: str) -> str:
    return (f"Your mail with orders for faction {faction}, which came on {came}, was NOT taken. The moderator says:\n\n"
            f"  {why}\n\nThe mailing that was taken before it still counts, if there is one.\n")


def welcome(club: str, faction: int, unit: int, name: str, pass_text: str, address: str, report: str) -> str:
    """The letter to a player who joins."""
    return f"""Welcome to {club}!

Your faction "{name}" has the number {faction}, and its first unit the number {unit}.
Your pass text is {pass_text} . Keep it to yourself: whoever knows it can send orders for you.

Mail your orders to {address}: a line #ATLANTIS {faction}, a line UNIT {unit}, the orders of this
unit, each on a line of its own, such as WORK, and last a line #END.

#END protects you: nothing below it, such as a signature, is read as an order. Mail from another
address than this one counts only with your pass text on its line #ATLANTIS {faction} {pass_text}

Each mail with orders is answered. A new mailing replaces the last one as a whole. The guide for
players and the world file with all prices are with this letter. This is your first report:

{report}"""


def report_letter(month: int, report: str, deadline: str) -> str:
    """The letter with a month's report."""
    until = f" They must come by {deadline}." if deadline else ""
    return f"Month {month} is closed. Mail your orders for month {month + 1} in reply.{until}\n\n{report}"


def last_report_letter(month: int, report: str) -> str:
    """The letter with the last report of a faction that is gone."""
    return f"Month {month} is closed. Your faction has no unit left, and is out of the game.\n\n{report}"


def reminder_silent(faction: int, month: int, deadline: str) -> str:
    until = f" They must come by {deadline}." if deadline else ""
    return (f"The moderator has no orders of your faction {faction} for month {month}.{until}\n\n"
            "If you send none, your people work for wages this month. Write your orders in reply, above this text, from a\n"
            f"line #ATLANTIS {faction} to a line #END.\n")


def reminder_faults(faction: int, month: int, faults: int, deadline: str) -> str:
    until = f" Corrections must come by {deadline}." if deadline else ""
    lines = "one line" if faults == 1 else f"{faults} lines"
    return (f"In the orders of your faction {faction} for month {month} the program could not read {lines}.{until}\n\n"
            "The reply to your mail says which. Send all your orders again: a new mailing replaces the last one.\n")


def withdrawn(faction: int, month: int) -> str:
    return (f"The mailing of your faction {faction} for month {month} was taken out. If you send no other, your people\n"
            "work for wages this month.\n")


def new_pass_text(faction: int, pass_text: str) -> str:
    return f"Your faction {faction} has a new pass text: {pass_text}\n\nThe old one counts no more.\n"
