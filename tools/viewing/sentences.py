"""Tells the lines of `explain` in whole sentences (docs/FORMATS.md, 'The report of `explain`'; docs/READING.md)."""
from __future__ import annotations

import re
from typing import Callable, Dict, List, Optional, Tuple

from viewing.octets import counted, element, octets_of
from viewing.places import CALLED, SOLE, Place, link, place_called

FAILURES = "400, 401, 403, 480, 483, 500 to 504"

# What a bad answer of a class is.
CLASSES = {
    "Surplus": "The server sent this where the connection is closed, or where no command is left to be answered.",
    "Cut": "The server's octets end within this answer.",
    "Malformed": "This is whole, but has not the form of an answer to this command.",
    "OutOfPlace": "The form is right, but no server may give this answer here, whatever its articles are.",
    "Contradiction": "No spool gives this answer together with those before it that were accepted.",
}

# The forms of lines by their first words, each with its sentence. Words in capitals are fields, whose kinds are below.
STANDING = (
    ("in no group", "Before it, no group was selected."),
    (
        "in NAME since J at first",
        "Before it, {J} had selected {NAME}, whose first article was the current one, if it has any.",
    ),
    (
        "in NAME since J at N since I",
        "Before it, {J} had selected {NAME}, and article {N} was the current one: {I} made it so, or showed that it"
        " was.",
    ),
)
GREETING = (("why code C allowed CODES", "A greeting has no code {C}. These fit: {CODES}."),)
WHY = (
    (
        "why code C allowed 381",
        "Code {C} doesn't fit here: of 300 to 399, 381 alone fits a command that isn't judged. All other codes do.",
    ),
    (
        "why code C allowed CODES",
        "Code {C} doesn't fit here. These do: {CODES}; and generic failures: " + FAILURES + ".",
    ),
    ("why code C", "The command is ill-formed, so that generic failures alone fit (" + FAILURES + "), and not {C}."),
    ("why name NAME", "It names the group {NAME}, and another one was asked for."),
    ("why number N", "It has the number {N}, and another one was asked for, or no group is selected."),
    ("why id ID", "It has the id {ID}, and another one was asked for."),
    ("why low N", "Its low mark is below {N}, that of an earlier 211 for this group."),
    (
        "why marks NAME",
        "The marks of {NAME} don't fit: the low mark is 0, or more than 1 above the high one, or there is no room for"
        " the estimate. Which of these it is, the marks tell.",
    ),
    ("why limit N", "{N} is no article number: it is 0, or above the limit of article numbers."),
    ("why order N M", "It lists {M} directly behind {N}, and {M} isn't greater."),
    ("why range N", "It lists {N}, which isn't in the range that was asked for."),
    ("why match NAME", "It lists the group {NAME}, which the wildmat doesn't match."),
    ("why twice NAME", "It lists {NAME} twice."),
    (
        "why lines",
        "It lists no overview where OVER or HDR names a range, or not just one where one article was asked for.",
    ),
    ("why head", "What it sends isn't a head, or isn't a head and a body. Which line is wrong isn't told."),
    ("why own ID", "The head that it sends says the id {ID}, and that isn't the id of the answer."),
    ("why octet", "The initial line holds NUL, CR or LF."),
    ("why length N", "The initial line has {N:octet}, its CRLF among them, and 512 are the most."),
    (
        "why code",
        "It doesn't begin with a code: three digits, the first of them 1 to 5, and then its end or a space.",
    ),
    ("why argument N number", "Argument {N} behind the code is missing, or is no number."),
    ("why argument N group", "Argument {N} behind the code is missing, or is no name of a group."),
    ("why argument N id", "Argument {N} behind the code is missing, or is no message-id."),
    ("why block line N octet", "Line {N} of the block holds NUL, CR or LF."),
    ("why block line N dot", "Line {N} of the block begins with a dot, as it is sent, and no other dot follows."),
    ("why block line N number", "Line {N} of the block isn't one number, as LISTGROUP lists them."),
    (
        "why block line N group",
        "Line {N} of the block isn't a group, two numbers and a word, as LIST ACTIVE lists them.",
    ),
    (
        "why block line N versions",
        "Line {N} of the block doesn't give the versions, as the first capability has to; or the block is empty.",
    ),
    ("why line", "The initial line has no CRLF."),
    ("why block", "The initial line is whole, and the line that ends its block, a dot alone, didn't come."),
    ("why no command", "The connection is open, and no line of the client is left to be answered."),
    ("why closed", "The connection was closed: by 400, 205 to QUIT, or 502 as greeting or to MODE READER."),
)
ABOUT = (
    (
        "about step NAME",
        "It can't be true where the session stands in {NAME}: it doesn't go with the current article, whatever else"
        " was said. Look at the answers since the last one that is named above: the server may have moved by one of"
        " them.",
    ),
    ("about group NAME", "The conflict is about whether there is a group {NAME}."),
    ("about number NAME N", "The conflict is about the number {N} of {NAME}: it is shown, and it is denied."),
    (
        "about count NAME",
        "The conflict is about how many numbers {NAME} has: more are shown, or are strict marks, than a 211 says that"
        " it has at most.",
    ),
    (
        "about first NAME",
        "The conflict is about how many numbers of {NAME} are below one, or in all, as NEXT or LAST from the first"
        " article tells.",
    ),
    ("about id NAME N", "The conflict is about which id is at the number {N} of {NAME}."),
    (
        "about place NAME ID",
        "The conflict is about the number at which {ID} is in {NAME}: in a group each id has one number.",
    ),
    ("about article ID", "The conflict is about whether {ID} has an article."),
    ("about field ID HEADER", "The conflict is about the {HEADER} of the article {ID}."),
    ("about PART ID", "The conflict is about the {PART} of the article {ID}."),
)
SAYS = (
    ("says group NAME", "It says that there is a group {NAME}."),
    ("says no group NAME", "It says that there is no group {NAME}."),
    ("says groups are N with NAME", "It lists {N:group}, {NAME} among them."),
    ("says groups are N without NAME", "It lists {N:group}, and not {NAME}."),
    (
        "says numbers NAME at most N within L-H",
        "It says that {NAME} has at most {N:number}, none outside {L} to {H}.",
    ),
    (
        "says numbers NAME at most N from L to H",
        "It says that {NAME} has at most {N:number}, none outside {L} to {H}, and if it has any, both of these.",
    ),
    ("says numbers NAME within 0-0", "It lists {NAME} with the marks 0 and 0: the group has no number."),
    (
        "says numbers NAME within L-H",
        "It lists {NAME} with these marks: none of its numbers is outside {L} to {H}, and it has none if {H} is below"
        " {L}.",
    ),
    ("says numbers NAME RANGE are N", "It lists {N:number} of {NAME}{RANGE}."),
    ("says numbers NAME RANGE are N with M", "It lists {N:number} of {NAME}{RANGE}, {M} among them."),
    ("says numbers NAME RANGE are N without M", "It lists {N:number} of {NAME}{RANGE}, and not {M}."),
    ("says number NAME N is missing", "It says that {NAME} has no number {N}."),
    ("says number NAME N is ID", "It says that the id at the number {N} of {NAME} is {ID}."),
    ("says first NAME is missing", "It says that {NAME} has no first number, and so none."),
    ("says first NAME is N", "It says that the first number of {NAME} is {N}."),
    (
        "says current NAME N is missing",
        "It says that {NAME} has no current article, which has been the number {N} so far.",
    ),
    (
        "says current NAME N is M",
        "It says that the current article of {NAME}, which has been the number {N} so far, is {M}.",
    ),
    ("says next NAME from first is missing", "It says that {NAME} has just one number."),
    (
        "says next NAME from first is N",
        "It says that the next number of {NAME} behind the first one is {N}: just one is below it.",
    ),
    ("says next NAME from N is missing", "It says that {NAME} has the number {N}, and none above it."),
    ("says next NAME from N is M", "It says that the next number of {NAME} behind {N} is {M}: none is between them."),
    ("says last NAME from first is missing", "It says that {NAME} has a first number, and none below it."),
    ("says last NAME from first is N", "It says that {N} is below the first number of {NAME}, which can't be."),
    ("says last NAME from N is missing", "It says that {NAME} has the number {N}, and none below it."),
    (
        "says last NAME from N is M",
        "It says that the last number of {NAME} before {N} is {M}: none is between them.",
    ),
    ("says article ID", "It says that {ID} has an article."),
    ("says no article ID", "It says that {ID} has no article."),
    ("says PART ID N lines, line M is missing", "The {PART} of {ID} that it sends has {N:line}, and no line {M}."),
    ("says PART ID N lines, line M is TEXT", "The {PART} of {ID} that it sends has {N:line}, and line {M} is {TEXT}."),
    ("says field ID HEADER is missing", "It says that the article {ID} has no {HEADER}, or one without a word."),
    ("says field ID HEADER is TEXT", "It says that the {HEADER} of {ID} has the words {TEXT}."),
)
BECAUSE = (
    (
        "because some of J to I",
        "One or more of the accepted answers {J} to {I} are needed too. Which they are isn't told.",
    ),
)


class Octets(str):
    """A name, an id or a line, as it is printed."""

    def __format__(self, _: str) -> str:
        return element("code", octets_of(self))


class Number(str):
    """A number; with a word behind the colon, so many of these."""

    def __format__(self, thing: str) -> str:
        return counted(int(self), thing) if thing else str(self)


class Codes(str):
    """Codes, one or more."""

    def __format__(self, _: str) -> str:
        return self.replace(" ", ", ")


class Range(str):
    """A range of numbers: nothing where none was asked for."""

    def __format__(self, _: str) -> str:
        first, _, last = self.partition("-")
        if last:
            return f" from {first} to {last}"
        return "" if first == "1" else f" from {first} on"


# The fields that call an answer, each of which becomes a link to it.
ANSWERS = ("J", "I")
# The kinds of fields, and what each of them matches.
KINDS = (
    (Octets, r"\S+", ("NAME", "ID")),
    (Octets, r".*", ("TEXT",)),
    (str, r"head|body", ("PART",)),
    (str, r"Subject|From|Date|References", ("HEADER",)),
    (Number, r"[0-9]+", ("N", "M", "L", "H", "C")),
    (str, CALLED, ANSWERS),
    (Codes, r"[0-9]+(?: [0-9]+)*", ("CODES",)),
    (Range, r"[0-9]+-[0-9]*", ("RANGE",)),
)
FIELDS = {field: (kind, pattern) for kind, pattern, fields in KINDS for field in fields}
Form = Tuple["re.Pattern[str]", str]


def compiled(forms: Tuple[Tuple[str, str], ...]) -> List[Form]:
    """The forms of lines as patterns, each with its sentence."""
    def named(field: "re.Match[str]") -> str:
        return f"(?P<{field[0]}>{FIELDS[field[0]][1]})"
    return [(re.compile(re.sub(r"\b[A-Z]+\b", named, form)), sentence) for form, sentence in forms]


FORMS: Dict[str, List[Form]] = {
    "in": compiled(STANDING),
    "why": compiled(WHY),
    "about": compiled(ABOUT),
    "says": compiled(SAYS),
    "because": compiled(BECAUSE),
}
OF_GREETING = compiled(GREETING)


def told_by(forms: List[Form], line: str, linked: Callable[[str], str]) -> Optional[str]:
    """The sentence of the first form that the line has, with the answers in it linked."""
    for pattern, sentence in forms:
        found = pattern.fullmatch(line)
        if found:
            texts = found.groupdict().items()
            return sentence.format(
                **{field: linked(text) if field in ANSWERS else FIELDS[field][0](text) for field, text in texts}
            )
    return None


def sentence_of(line: str, of: Optional[Place] = None, session: int = SOLE) -> str:
    """A line that tells of an answer in a sentence, which stands where this session is told; one of an unknown form as
    it is printed."""
    def linked(called: str) -> str:
        return link(place_called(called, of.session if of else session), session)
    forms = FORMS.get(line.partition(" ")[0], [])
    told = told_by(OF_GREETING + forms if of and of.index == 0 else forms, line, linked)
    return told or f"As printed: {element('code', octets_of(line))}"
