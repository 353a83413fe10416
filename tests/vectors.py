"""The vectors of tests/vectors/: a file for the base version and one for each paper, with a JSON object on each line.

A text stands in a field by itself or, in a field whose name ends in _hex, in hexadecimal digits; base.jsonl has its tickets in
digits under the plain name.

Which field is what is written now: in the papers' files `result_when_all_have_landed`, since no paper after the fourth changes what
is written for a coordinator ticket; for a flood ticket, which begins 05 or 06 and is refused until Paper 5 lands, `result`. (`result`
is what was written when the papers up to the file's had landed. In paper-04.jsonl the two are the same but for the flood ticket.)
base.jsonl has `result` alone, without Papers 2 and 4; 15 of its tickets have small letters, and are answered as since Paper 1. It is
compared without any count: what is written now with the two bytes that Paper 2 adds struck out of each line 11, and both without the
two counts of line 12 (`comparable_result`, `comparable`); and where the room matters, the output is longer by what Paper 2 adds
(`output`). The counts of before Paper 4, which are of all frames that were sent, are those of `result` in base.jsonl, paper-01.jsonl
and paper-02.jsonl (`COUNTED_AS_SENT`, `result_before`): tests/show-test and second/tests/vectors.rs hold to them what is carried and
what is dropped.

Settling answers the lowest round that qualifies (Paper 6): the first of those that base.jsonl lists, and what paper-06.jsonl says, which
has the rounds of the run too and nothing else of what running writes (`settlings`).

paper-07.jsonl has the reasons of whole runs, and single reasons or refusals (`reasons`).

paper-09.jsonl has quotes or refusals, each of a process by the direct costs of a tender's lines (`quotes`).

paper-14.jsonl has orders in which the process parts of an accepted ticket are called, and the states with which they end: of one tender
(`orders`), or of two whose rounds are mixed (`mixed_orders`). Every order names all processes. To be passed over are those that have
crashed, and in closing also those that are open and crash in that round; one that has decided is called, and refuses with 11.
"""

from __future__ import annotations

import json
import os
from dataclasses import dataclass
from typing import NamedTuple

FOLDER = os.path.join(os.path.dirname(os.path.abspath(__file__)), "vectors")
BASE, DESK = "base", "desk"
PAPERS = ["paper-01", "paper-02", "paper-03", "paper-04"]  # whose vectors are of running a ticket
TICKET_FILES = [BASE, *PAPERS]
SETTLING = "paper-06"  # whose vectors are of settling a ticket
REASONS = "paper-07"  # whose vectors are of the reason of a process in a round
QUOTES = "paper-09"  # whose vectors are of the quote of a process
ORDERS = "paper-14"  # whose vectors are of the order in which process parts are called
COUNTED_AS_SENT = [BASE, "paper-01", "paper-02"]  # whose `result` is of before Paper 4
FLOOD = (b"05", b"06")  # how a ticket begins that is refused until Paper 5 lands
COUNTS = 4  # digits at the end of a process's line, two for each count (Paper 2)
PROCESS_LINE = 20  # digits of it in all
LAST_COUNTS = 8  # digits at the end of the last line, four for each count
LAST_LINE = 16  # digits of it in all
LINES_WITH_COUNTS = {b"11": (PROCESS_LINE, COUNTS), b"12": (LAST_LINE, LAST_COUNTS)}
TOO_SHORT = 9  # the refusal of an output; those below it are of a ticket
NOT_A_STATE = 10  # that of a process part's bytes
OUTSIDE = 13  # that of a process or a round that a run does not have


@dataclass
class Entry:
    """An entry of Paper 3's table."""

    byte: int
    digit_value: int | None  # none: the mark of a byte that is no digit


@dataclass
class Vector:
    """A line of a file."""

    file: str
    number: int  # of the line in the file, from 1
    about: str

    @property
    def place(self):
        return f"{self.file}.jsonl, line {self.number}"

    @property
    def of_ticket(self):
        """Whether it is refused for its ticket, whatever is asked of it."""
        return self.refusal is not None and self.refusal[0] < TOO_SHORT


@dataclass
class Settling(Vector):
    """A ticket that is settled, and what is answered."""

    text: bytes
    refusal: tuple | None  # its number and line
    round: int | None  # the settling round of an accepted ticket
    run_rounds: int | None  # those of its run, where the file says it


@dataclass
class Reasons(Vector):
    """A ticket, and the reasons of its whole run, or one process and one round of it with the reason or a refusal."""

    text: bytes
    rounds: list | None  # for each round the reason of each process in order
    process: int | None  # where one reason is asked for
    round: int | None
    reason: int | None  # none if it is refused
    refusal: tuple | None  # its number and line

    @property
    def table(self):
        """The reasons of the whole run, round by round; none if the vector has one alone."""
        return [reason for of_round in self.rounds for reason in of_round] if self.rounds else None


@dataclass
class Quote(Vector):
    """A ticket, the direct costs of a tender's lines and a process, with its quote or a refusal."""

    text: bytes
    costs: list  # in pence
    process: int
    quote: int | None  # in pence; none if it is refused
    refusal: tuple | None  # its number and line


@dataclass
class Order(Vector):
    """A ticket, the orders in which its process parts are called, and their states at the end."""

    text: bytes
    speaking: list  # for each round of the run the processes, all of them, in the order in which they are to speak
    closing: list  # likewise, in the order in which they are to close
    states: list  # nine bytes for each process


class Step(NamedTuple):
    """A round of one of two tenders: its next one."""

    tender: int  # from 0: the place of its ticket and states (the file counts from 1)
    speaking: list
    closing: list


@dataclass
class MixedOrder(Vector):
    """The tickets of two tenders, their rounds in the order in which they are played, and the states at the end."""

    texts: list
    steps: list
    states: list  # for each tender those of its processes, nine bytes each


@dataclass
class Ticket(Vector):
    """A ticket that is run, and what is written."""

    texts: list  # the ticket's bytes, and where it has letters often the same ticket in other letters
    result: str
    result_before: str  # what was written when the papers up to the file's had landed
    room: int | None  # of the output; ample if it is not said
    settling_rounds: list | None  # that qualify, where the file says it
    entry: Entry | None  # of the byte that stands in the ticket for two digits, in the file of Paper 3

    @property
    def settling(self):
        """What settling it answers, where the file says it."""
        if self.file != BASE:
            return None
        refusal, settled = (None, self.settling_rounds[0]) if self.settling_rounds else (self.refusal, None)
        return Settling(self.file, self.number, self.about, self.texts[0], refusal, settled, None)

    @property
    def process_lines_without_counts(self):
        """How many lines 11 of what is written now are compared without their counts: where the file has none all, one for each process."""
        read = self.refusal is None or self.refusal[0] == TOO_SHORT
        return int(self.texts[0][2:4], 16) if read and self.file == BASE else 0

    def output(self, ample):
        """How many bytes the output has into which the ticket is run now; `ample` if the vector does not say."""
        return ample if self.room is None else self.room + COUNTS * self.process_lines_without_counts

    @property
    def bytes_not_compared(self):
        """How many bytes of what is written now are left out where it is compared."""
        lines = self.process_lines_without_counts
        return COUNTS * lines + LAST_COUNTS if lines and not self.refusal else 0

    @property
    def comparable_result(self):
        """The result, as bytes, in the form in which it is compared: of the base without the counts of its last line."""
        result = self.result.encode("ascii")
        return result[: -LAST_COUNTS - 1] + b"\n" if self.bytes_not_compared else result

    def comparable(self, written):
        """What is written now, as bytes, in that form; none if a line is not of today's length."""
        return without_counts(written) if self.process_lines_without_counts else written

    @property
    def result_with_counts(self):
        """The result, as bytes, in the form of today, with counts of 0 in the lines 11 of a base ticket, whose file has none there."""
        zeros = "0" * COUNTS if self.process_lines_without_counts else ""
        lines = (line + zeros if line.startswith("11") else line for line in self.result.splitlines())
        return "".join(line + "\n" for line in lines).encode("ascii")

    @property
    def refusal(self):
        """Number and line of the refusal that is written; none for an accepted ticket."""
        return (int(self.result[2:4], 16), int(self.result[4:8], 16)) if self.result.startswith("1F") else None


def without_counts(result):
    """A result without the counts of each process and of the last line; none if a line is not of today's length."""
    left = []
    for line in result.split(b"\n"):
        length, counted = LINES_WITH_COUNTS.get(line[:2], (len(line), 0))
        if len(line) != length:
            return None
        left.append(line[: length - counted])
    return b"\n".join(left)


def counts_in(line):
    """Data and commits as a line of a result counts them; none for a process's line of before Paper 2, which does not."""
    length, counted = LINES_WITH_COUNTS[line[:2]]
    data, commits = line[-counted : -counted // 2], line[-counted // 2 :]
    return (int(data, 16), int(commits, 16)) if len(line) == length else None


def objects(file):
    """The objects of a file, each with its line's number."""
    with open(os.path.join(FOLDER, file + ".jsonl"), encoding="utf-8") as lines:
        return [(number, json.loads(line)) for number, line in enumerate(lines, 1)]


def text_of(vector, name):
    """The bytes of a text; none if the vector does not have it."""
    if name + "_hex" in vector:
        return bytes.fromhex(vector[name + "_hex"])
    return vector[name].encode("ascii") if name in vector else None


def texts_of(file, vector):
    if file == BASE:
        return [bytes.fromhex(vector["ticket"])]
    ticket, other = text_of(vector, "ticket"), text_of(vector, "ticket_in_other_letters")
    return [ticket] if other in (None, ticket) else [ticket, other]


def result_of(vector, ticket):
    """What is written now for a ticket, in the form of its file."""
    landed = vector.get("result_when_all_have_landed")
    return vector["result"] if landed is None or ticket.startswith(FLOOD) else landed


def tickets(*files):
    """The tickets of these files; of all that have some, if none is named."""
    return [
        Ticket(
            file,
            number,
            vector["about"],
            texts,
            result_of(vector, texts[0]),
            vector["result"],
            vector.get("room"),
            vector.get("settling_rounds_that_qualify"),
            Entry(vector["byte"], vector["digit_value"]) if "byte" in vector else None,
        )
        for file in files or TICKET_FILES
        for number, vector in objects(file)
        for texts in [texts_of(file, vector)]
    ]


def refusal_of(vector):
    """Number and line of the refusal that a vector of Papers 6, 7 and 9 has; none if it has none."""
    refusal = vector.get("refusal")
    return (refusal["number"], refusal["line"]) if refusal else None


def settling_of(number, vector):
    """A vector of Paper 6."""
    text, refusal = text_of(vector, "ticket"), refusal_of(vector)
    return Settling(SETTLING, number, vector["about"], text, refusal, vector.get("settling_round"), vector.get("run_rounds"))


def settlings():
    """The tickets of Paper 6, whose settling round is told by itself."""
    return [settling_of(number, vector) for number, vector in objects(SETTLING)]


def reasons():
    """The vectors of Paper 7."""
    names = ("reasons_by_round_then_station", "station", "round", "reason")
    return [
        Reasons(REASONS, number, vector["about"], text_of(vector, "ticket"), *map(vector.get, names), refusal_of(vector))
        for number, vector in objects(REASONS)
    ]


def quotes():
    """The vectors of Paper 9."""
    names = ("direct_costs", "desk", "quote")
    return [
        Quote(QUOTES, number, vector["about"], text_of(vector, "ticket"), *map(vector.get, names), refusal_of(vector))
        for number, vector in objects(QUOTES)
    ]


def orders():
    """The vectors of Paper 14 that are of one tender."""
    names = ("speaking_order_by_round", "closing_order_by_round")
    return [
        Order(ORDERS, number, vector["about"], text_of(vector, "ticket"), *map(vector.get, names), states_of(vector["states_at_the_end"]))
        for number, vector in objects(ORDERS)
        if "steps" not in vector
    ]


def mixed_orders():
    """The vectors of Paper 14 that are of two tenders."""
    return [
        MixedOrder(
            ORDERS,
            number,
            vector["about"],
            [ticket.encode("ascii") for ticket in vector["tickets"]],
            [Step(step["tender"] - 1, step["speaking_order"], step["closing_order"]) for step in vector["steps"]],
            [states_of(states) for states in vector["states_at_the_end_by_tender"]],
        )
        for number, vector in objects(ORDERS)
        if "steps" in vector
    ]


def states_of(digits):
    return [bytes.fromhex(state) for state in digits]


def calls():
    """The calls of start, speak and close, each with its line's number."""
    return objects(DESK)
