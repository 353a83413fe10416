"""Tickets, results and reasons as tools/draw-run, tools/explain-run and tests/show-test look at them.

What running a ticket answers is never worked out here: it is read off what `simulate` writes; nor are the reasons of Paper 7,
which are what `reasons` (examples/reasons.c) writes. What is worked out is how the run
came there (who sent what to whom, what of it the switch carried, who heard it, who held which value, and so in which round
all held one), from the ticket's failure lines and from the result, which says who had decided or crashed when; and
`contradictions` says where these do not add up. (The settling round is what `uc_settle` answers: tests/show-test holds it
to that.) The result counts what was carried: a frame to a process that was up and undecided when the round began. Of a
refusal, `what_is_wrong` says which of the things that its text names is the case.
"""

from __future__ import annotations

import collections
import decimal
import functools
import os
import re
import subprocess
from dataclasses import dataclass, field

HERE = os.path.dirname(os.path.abspath(__file__))
# In the repository, and where `make install` puts things.
HEADERS = ["../include/agreement.h", "../../include/agreement.h"]
PROGRAMS = ["../target/bin/{}", "../../bin/{}"]

HEADER, PROPOSAL, FAILURE, END = 0x01, 0x02, 0x03, 0x04
PROCESS, LAST, REFUSAL = 0x11, 0x12, 0x1F
LENGTHS = {HEADER: 3, PROPOSAL: 6, FAILURE: 13, END: 1, REFUSAL: 4}  # in bytes; those of a result are the header's
RESULT_LINES = {PROCESS: "UC_PROCESS_LINE_BYTES", LAST: "UC_LAST_LINE_BYTES"}
DECIDED, CRASHED = 1, 2
BEFORE_SENDING, DURING_DATA, DURING_COMMITS = 0, 1, 2
DATA, COMMIT = "data", "commit"
TICKET_DIGITS, RESULT_DIGITS = b"0123456789ABCDEFabcdef", b"0123456789ABCDEF"
CARRIAGE_RETURN = 0x0D
MOST_BYTES, MOST_PROCESSES = 4096, 64
COORDINATED, COMMITTED, VALUE_ONLY, CRASHED_BEFORE, CRASHED_NOW, CRASHES, ENDED_BEFORE = range(1, 8)  # the reasons
OUTSIDE = 13  # the refusal of a process or a round that a run does not have
MOST_COSTS, HIGHEST_COST = 200, 1_000_000_000  # of a tender: its lines, and the direct cost of each in pence
WRONG_COUNT, TOO_HIGH, NO_QUOTE = 14, 15, 16  # the refusals of a tender's lines, of a cost, and of a process that has no quote


class Unusable(Exception):
    """What cannot be shown, and why: no such file, no program, no ticket with its result."""


def beside(names, what):
    """The first of these files, by their place beside this one."""
    for name in names:
        path = os.path.normpath(os.path.join(HERE, name))
        if os.path.exists(path):
            return path
    raise Unusable(f"{what} is missing: {os.path.normpath(os.path.join(HERE, names[0]))}")


@functools.lru_cache(None)
def header_text():
    with open(beside(HEADERS, "the header"), encoding="utf-8") as file:
        return file.read()


def header_table(name):
    """A table of the header: numbers, each with its text."""
    rows = header_text().split(f"#define {name}(X)", 1)[1].split("\n\n", 1)[0]
    return {int(number): text for number, text in re.findall(r'^\s+X\((\d+), "([^"]*)"\)', rows, re.M)}


def refusal_texts():
    """The header's table of refusals, the only one there is."""
    return header_table("UC_REFUSALS")


def reason_texts():
    """The header's table of reasons, the only one there is."""
    return header_table("UC_REASONS")


def header_number(name):
    """A number that the header defines."""
    found = re.search(rf"^#define {name} (\d+)$", header_text(), re.M)
    if not found:
        raise Unusable(f"the header does not define {name}")
    return int(found.group(1))


def length_of(kind):
    """How many bytes a line of that kind has: two digits each, and the 0A that the header counts too."""
    return (header_number(RESULT_LINES[kind]) - 1) // 2 if kind in RESULT_LINES else LENGTHS[kind]


def largest_result():
    return header_number(RESULT_LINES[PROCESS]) * MOST_PROCESSES + header_number(RESULT_LINES[LAST])


def number(data):
    return int.from_bytes(data, "big")


def value_text(value):
    """A value as a ticket writes it."""
    return f"{value:08X}"


# ---- tickets, results and where they come from


def read_ticket(path):
    try:
        with open(path, "rb") as file:
            return file.read()
    except OSError as error:
        raise Unusable(f"{path}: {error.strerror}") from None


def asked(name, program, text, *words):
    """What a program of ours writes for a ticket."""
    program = program or beside([place.format(name) for place in PROGRAMS], "the program (`make` builds it)")
    try:
        ran = subprocess.run([program, *words], input=text, capture_output=True, check=False)
    except OSError as error:
        raise Unusable(f"{program}: {error.strerror}") from None
    if not ran.stdout:
        raise Unusable(f"{program} wrote nothing. {ran.stderr.decode(errors='replace').strip()}")
    return ran.stdout


def simulated(text, program=None):
    """What `simulate` writes for a ticket."""
    return asked("simulate", program, text)


def reasoned(text, program=None):
    """What `reasons` writes for a ticket: for each round a line of digits, one for each process."""
    return asked("reasons", program, text, "-")


def lines_of(text):
    """A text's lines without their 0A, and whether the last one has it."""
    pieces = text.split(b"\n")
    return (pieces[:-1], True) if pieces[-1] == b"" else (pieces, False)


def decoded(line, digits=TICKET_DIGITS):
    """The bytes that a line's digits make; None if it is not a line."""
    if not line or len(line) % 2 or set(line) - set(digits):
        return None
    return bytes.fromhex(line.decode())


def expected(lines, index, kind):
    """The bytes of a line that must be there, of that kind; those of a result have capitals."""
    digits = RESULT_DIGITS if kind in RESULT_LINES else TICKET_DIGITS
    data = decoded(lines[index], digits) if index < len(lines) else None
    if data is None or data[0] != kind or len(data) != length_of(kind):
        raise Unusable(f"line {index + 1} is not a line {kind:02X} of {length_of(kind)} bytes")
    return data


# ---- an accepted ticket's run


@dataclass
class Failure:
    round: int
    step: int
    reached: int
    commits: int

    def reaches(self, process):
        return bool(self.reached >> (process.id - 1) & 1)


@dataclass
class Process:
    id: int
    proposal: int
    failure: Failure | None = None
    end: int = 0
    round: int = 0  # of deciding or crashing
    value: int = 0  # decided
    data: int = 0  # messages of it that were carried
    commits: int = 0

    def begins(self, round_number):
        """Up and undecided as that round begins."""
        return self.round >= round_number

    def crashes_in(self, round_number):
        return self.end == CRASHED and self.round == round_number

    def crashed_by(self, round_number):
        """Crashed when that round ends."""
        return self.end == CRASHED and self.round <= round_number

    def decides_in(self, round_number):
        return self.end == DECIDED and self.round == round_number

    def hears_in(self, round_number):
        return self.begins(round_number) and not self.crashes_in(round_number)

    @property
    def decided(self):
        """The value that it decided; none if it crashed."""
        return self.value if self.end == DECIDED else None

    @property
    def idle(self):
        """A failure line whose process had decided before."""
        return self.failure if self.end == DECIDED else None


@dataclass
class Message:
    kind: str
    sender: Process
    recipient: Process
    carried: bool  # or else dropped by the switch
    heard: bool


@dataclass
class Round:
    number: int
    coordinator: Process
    value: int  # that the coordinator holds
    messages: list  # in sending order
    held: dict  # by process, at the round's end
    reasons: dict = field(default_factory=dict)  # by process, as the library gives them; empty if it was not asked

    def sent(self, kind):
        return [message for message in self.messages if message.kind == kind]

    def carried(self, kind):
        return [message for message in self.sent(kind) if message.carried]

    def dropped(self, kind):
        return [message for message in self.sent(kind) if not message.carried]

    def heard(self, kind):
        return {message.recipient.id for message in self.sent(kind) if message.heard}

    @property
    def silent(self):
        return not self.coordinator.begins(self.number)

    def having(self, processes, *reasons):
        """Those of some processes that have one of these reasons."""
        return [process for process in processes if self.reasons[process.id] in reasons]


@dataclass
class Run:
    n: int
    t: int
    processes: list
    last: int  # the run's rounds
    crashes: int
    speakers: int
    data: int
    commits: int
    rounds: list = field(default_factory=list)


@dataclass
class Refused:
    number: int
    line: int
    text: str


def read_result(ticket, result):
    """What a ticket was answered: a Run with its rounds played, still without reasons, or a Refused."""
    said, _ = lines_of(result)
    first = decoded(said[0], RESULT_DIGITS) if said else None
    if first and first[0] == REFUSAL and len(first) == LENGTHS[REFUSAL]:
        text = refusal_texts().get(first[1], "no refusal of this version")
        return Refused(first[1], number(first[2:]), text)
    run = read_run(lines_of(ticket)[0], said)
    play(run)
    return run


def answer_with_reasons(ticket, result, program=None):
    """What a ticket was answered, an accepted one with the reasons that the library gives."""
    answer = read_result(ticket, result)
    if not isinstance(answer, Refused):
        read_reasons(answer, reasoned(ticket, program))
    return answer


def read_reasons(run, text):
    """Puts the reasons that the library gives into a run's rounds."""
    lines, _ = lines_of(text)
    digits = set(b"".join(b"%d" % reason for reason in reason_texts()))
    if len(lines) != run.last:
        raise Unusable(f"there are reasons of {counted(len(lines), 'round')}, and the run has {run.last}")
    for played, line in zip(run.rounds, lines):
        if len(line) != run.n or set(line) - digits:
            raise Unusable(f"{shown(line)} are no reasons of {counted(run.n, 'process')}")
        played.reasons = {process.id: digit - ord("0") for process, digit in zip(run.processes, line)}


def run_rounds(result):
    """The rounds of an accepted ticket's run, from its result's last line."""
    said, _ = lines_of(result)
    return expected(said, len(said) - 1, LAST)[1]


def read_run(ticket, result):
    """An accepted ticket's run, from its lines and its result's."""
    n, t = expected(ticket, 0, HEADER)[1:]
    processes = [Process(p, number(expected(ticket, p, PROPOSAL)[2:])) for p in range(1, n + 1)]
    for index in range(n + 1, len(ticket) - 1):
        data = expected(ticket, index, FAILURE)
        if not 1 <= data[1] <= n:
            raise Unusable(f"line {index + 1} is of no process")
        processes[data[1] - 1].failure = Failure(data[2], data[3], number(data[4:12]), data[12])
    for process in processes:
        data = expected(result, process.id - 1, PROCESS)
        process.end, process.round, process.value = data[2], data[3], number(data[4:8])
        process.data, process.commits = data[8:]
        failure = process.failure
        if process.end == CRASHED and (failure is None or failure.round != process.round):
            raise Unusable(f"no failure line lets process {process.id} crash in round {process.round}")
    last = expected(result, n, LAST)
    return Run(n, t, processes, last[1], last[2], last[3], number(last[4:6]), number(last[6:8]))


def recipients(run, coordinator, round_number):
    """To whom the coordinator sends data, and to whom commits, each in sending order."""
    if not coordinator.begins(round_number):
        return [], []
    above = run.processes[round_number:]
    failure = coordinator.failure
    if not coordinator.crashes_in(round_number):
        return above, above[::-1]
    if failure.step == BEFORE_SENDING:
        return [], []
    if failure.step == DURING_DATA:
        return [process for process in above if failure.reaches(process)], []
    return above, above[::-1][: failure.commits]


def play(run):
    """Fills in the run's rounds."""
    held = {process.id: process.proposal for process in run.processes}
    for round_number in range(1, run.last + 1):
        coordinator = run.processes[round_number - 1]
        value = held[coordinator.id]
        messages = [
            Message(kind, coordinator, recipient, recipient.begins(round_number), recipient.hears_in(round_number))
            for kind, those in zip((DATA, COMMIT), recipients(run, coordinator, round_number))
            for recipient in those
        ]
        for message in messages:
            if message.heard:
                held[message.recipient.id] = value
        run.rounds.append(Round(round_number, coordinator, value, messages, dict(held)))


def not_crashed(run, played):
    """The processes that have not crashed when a round ends."""
    return [process for process in run.processes if not process.crashed_by(played.number)]


def settling_round(run):
    """The first round at whose end all processes that have not crashed hold one value (02, Paper 6); none if there is no such round."""
    for played in run.rounds:
        if len({played.held[process.id] for process in not_crashed(run, played)}) == 1:
            return played
    return None


def settled_value(run):
    """The value that they hold then."""
    played = settling_round(run)
    return played.held[not_crashed(run, played)[0].id]


def contradicting_counts(run):
    """Where the frames that were carried and the result's counts of them do not add up."""
    wrong = []
    data = sum(len(played.carried(DATA)) for played in run.rounds)
    commits = sum(len(played.carried(COMMIT)) for played in run.rounds)
    if (data, commits) != (run.data, run.commits):
        wrong.append(f"{data} data and {commits} commits are carried, but the result counts {run.data} and {run.commits}")
    messages = [message for played in run.rounds for message in played.messages if message.carried]
    carried = collections.Counter((message.sender.id, message.kind) for message in messages)
    for process in run.processes:
        data, commits = carried[process.id, DATA], carried[process.id, COMMIT]
        if (data, commits) != (process.data, process.commits):
            said = f"its line counts {process.data} and {process.commits}"
            wrong.append(f"{data} data and {commits} commits of process {process.id} are carried, but {said}")
    return wrong


def true_reasons(run, played):
    """For each reason the processes of which it is true, by the messages of the round and how processes end (02, Paper 7)."""
    r, coordinator = played.number, played.coordinator
    hearing = {process.id for process in run.processes if process.hears_in(r)}
    value, commit = played.heard(DATA), played.heard(COMMIT)
    deaf = hearing - value - commit
    return {
        COORDINATED: {coordinator.id} if coordinator.decides_in(r) else set(),
        COMMITTED: hearing & value & commit,
        VALUE_ONLY: hearing & value - commit,
        CRASHED_BEFORE: deaf if coordinator.crashed_by(r - 1) else set(),
        CRASHED_NOW: deaf if coordinator.crashes_in(r) else set(),
        CRASHES: {process.id for process in run.processes if process.crashes_in(r)},
        ENDED_BEFORE: {process.id for process in run.processes if not process.begins(r)},
    }


def worked_reasons(run):
    """The reasons of a run, round by round, by what is true of each process; 0 where not exactly one is. For tests of the library."""
    table = []
    for played in run.rounds:
        applies = true_reasons(run, played)
        true = ([reason for reason, those in applies.items() if process.id in those] for process in run.processes)
        table += [found[0] if len(found) == 1 else 0 for found in true]
    return table


def worked_line(rates, cost):
    """A tender line by a rate set (02, Paper 9): of overhead and of markup what it comes to, exactly and rounded, and the line with it.
    For tests of the library."""
    steps, line = [], cost
    for rate in divmod(rates, 1 << 16):
        exact = decimal.Decimal(line * rate).scaleb(-4)  # the rate is in hundredths of a percent
        rounded = int(exact.quantize(decimal.Decimal(1), decimal.ROUND_HALF_UP))
        line += rounded
        steps.append((exact, rounded, line))
    return steps


def worked_quote(rates, costs):
    """The quote of a tender by a rate set, likewise; or its refusal, with line 0. Of a process that has decided none, the rate set is none."""
    if not 1 <= len(costs) <= MOST_COSTS:
        return WRONG_COUNT, 0
    if max(costs) > HIGHEST_COST:
        return TOO_HIGH, 0
    return (NO_QUOTE, 0) if rates is None else sum(worked_line(rates, cost)[-1][-1] for cost in costs)


def decided_state(run, process):
    """The nine bytes of the part of a process that has decided. For tests of the library."""
    return bytes([process.id, run.n, run.t, process.round, DECIDED]) + process.value.to_bytes(4, "big")


def contradicting_reasons(run):
    """Where a reason that the library gives is not true of what is shown."""
    texts = reason_texts()
    return [
        f"round {played.number}: process {process} has reason {reason}, {texts[reason]}, which is not so"
        for played in run.rounds
        for applies in [true_reasons(run, played)]
        for process, reason in played.reasons.items()
        if process not in applies[reason]
    ]


def contradictions(run):
    """Where the run, as it was played, the result and the reasons do not add up."""
    wrong = contradicting_counts(run) + contradicting_reasons(run)
    speakers = sum(not played.silent for played in run.rounds)
    if speakers != run.speakers:
        wrong.append(f"{speakers} coordinators speak, but the result counts {run.speakers}")
    crashes = sum(process.end == CRASHED for process in run.processes)
    if crashes != run.crashes:
        wrong.append(f"{crashes} processes crash, but the result's f is {run.crashes}")
    for played in run.rounds:
        deciders = played.heard(COMMIT)
        if played.coordinator.hears_in(played.number):
            deciders = deciders | {played.coordinator.id}
        said = {process.id for process in run.processes if process.decides_in(played.number)}
        if deciders != said:
            wrong.append(f"round {played.number}: {names(deciders)} decide, but the result says {names(said)}")
    if not settling_round(run):
        wrong.append("at the end of no round all processes that have not crashed hold one value")
    for process in run.processes:
        held = run.rounds[-1].held[process.id] if run.rounds else process.proposal
        if process.end == DECIDED and process.value != held:
            wrong.append(f"process {process.id} decides {value_text(process.value)}, but holds {value_text(held)}")
    return wrong


# ---- what is wrong with a refused ticket


# What a refusal means, to be read out to someone who has never seen a ticket's text.
MEANINGS = {
    1: "the ticket is too long. The longest that there can be has 2,543 bytes, so this text is something else, or several tickets.",
    2: "this line is not written as the lines of a ticket are: pairs of digits 0-9, A-F or a-f, no blanks, and a line feed at its end.",
    3: "this line is of a kind that may not stand here, or it is too long or too short; or the closing line 04 is missing.",
    4: "the first line asks for what cannot be: there are 1 to 64 desks, and fewer of them may fail than there are.",
    5: "the proposals are out of order: there is one for each desk, from desk 1 to the last, and none may be missing.",
    6: "the ticket has more failure lines than its first line allows.",
    7: "this failure line names a desk, a round or a step that there is not, or its desk does not come after that of the line before.",
    8: "this failure line does not fit together: its round, its set or its count cannot go with its step.",
    9: "nothing is wrong with the ticket. The program that asked made too little room for the answer.",
    13: "nothing is wrong with the ticket. It has no such desk, or its run no such round: both count from 1, and a run ends when no desk is left undecided.",
}


def what_is_wrong(ticket, refused):
    """Which of the things that a refusal's text names is the case: sentences, at least one."""
    if refused.number == 1:
        return [f"The ticket has {len(ticket):,} bytes."]
    lines, closed = lines_of(ticket)
    if refused.number == OUTSIDE or refused.line < 1 or refused.line > len(lines) + 1:
        return ["No line is wrong."]
    if not ticket:
        return ["The ticket is empty."]
    if refused.line == len(lines) + 1:
        return [f"The ticket is over after {counted(len(lines), 'line')}, and none of them is the closing 04."]
    line = lines[refused.line - 1]
    data = decoded(line)
    n, t = (decoded(lines[0]) or b"\0\0\0")[1:3] if refused.line > 1 else (0, 0)
    before = [decoded(earlier) for earlier in lines[: refused.line - 1]]
    found = {
        2: lambda: line_findings(line, closed or refused.line < len(lines)),
        3: lambda: kind_findings(data, before, n),
        4: lambda: limit_findings(data[1], data[2]),
        5: lambda: [f"It is of process {data[1]}; the next one is process {refused.line - 1}."],
        6: lambda: [f"t is {t}, and this is failure line {refused.line - 1 - n}."],
        7: lambda: place_findings(data, before, n, t),
        8: lambda: step_findings(data, n),
    }.get(refused.number, lambda: [])()
    return found or ["Which of these it is, this tool cannot tell."]


def line_findings(line, closed):
    found = []
    if not line:
        found.append("The line is empty.")
    other = sorted(set(line) - set(TICKET_DIGITS))
    if other:
        found.append(f"It has other bytes than digits 0-9, A-F and a-f: {', '.join(map(byte_text, other[:8]))}.")
    elif len(line) % 2:
        found.append(f"It has {counted(len(line), 'digit')}, which is an odd count.")
    if CARRIAGE_RETURN in line:
        found.append("The file has the line ends of another system (0D 0A): it is to be saved with 0A alone.")
    if not closed:
        found.append("It is the last line, and no byte 0A closes it.")
    return found


def byte_text(byte):
    known = {0x20: "a space", CARRIAGE_RETURN: "a carriage return (0D)", 0x09: "a tab (09)"}
    return known.get(byte) or (f"'{chr(byte)}'" if 0x20 < byte < 0x7F else f"byte {byte:02X}")


def kind_findings(data, before, n):
    """The kinds that may stand here, or the length that the kind has."""
    if before and before[-1][0] == END:
        return ["It stands after the closing 04."]
    if not before:
        allowed = [HEADER]
    elif len(before) <= n:
        allowed = [PROPOSAL]
    else:
        allowed = [FAILURE, END]
    if data[0] not in allowed:
        return [f"It is a line {data[0]:02X}; here a line {' or '.join(f'{kind:02X}' for kind in allowed)} must stand."]
    return [f"It has {counted(len(data), 'byte')}; a line {data[0]:02X} has {LENGTHS[data[0]]}."]


def limit_findings(n, t):
    found = []
    if not 1 <= n <= MOST_PROCESSES:
        found.append(f"n is {n}, which is not within 1 to {MOST_PROCESSES}.")
    if t >= n:
        found.append(f"t is {t}, which is not below n = {n}.")
    return found


def place_findings(data, before, n, t):
    process, round_number, step = data[1:4]
    found = []
    if not 1 <= process <= n:
        found.append(f"Process {process} is not within 1 to {n}.")
    if before and before[-1][0] == FAILURE and process <= before[-1][1]:
        found.append(f"Process {process} stands after process {before[-1][1]}; processes rise.")
    if not 1 <= round_number <= t + 1:
        found.append(f"Round {round_number} is not within 1 to t + 1 = {t + 1}.")
    if step > DURING_COMMITS:
        found.append(f"Step {step:02X} is above 02.")
    return found


def step_findings(data, n):
    process, round_number, step, reached, count = data[1], data[2], data[3], number(data[4:12]), data[12]
    found = []
    if step != BEFORE_SENDING and round_number != process:
        found.append(f"Step {step:02X} stands in round {round_number}; process {process} sends in round {process} only.")
    if step == DURING_DATA:
        wrong = [j for j in range(1, 65) if reached >> (j - 1) & 1 and not process < j <= n]
        if wrong:
            found.append(f"The set names {names(wrong)}; a step 01 reaches processes above {process} and at most {n}.")
    elif reached:
        found.append(f"The set is not 0; step {step:02X} has none.")
    if step == DURING_COMMITS and count > n - process:
        found.append(f"{counted(count, 'commit')} are more than the {counted(n - process, 'process')} above {process}.")
    elif step != DURING_COMMITS and count:
        found.append(f"The count is {count}; step {step:02X} has none.")
    return found


def fields(data):
    """A line in words, field by field."""
    known = {
        HEADER: lambda: f"header: n {data[1]}, t {data[2]}",
        PROPOSAL: lambda: f"proposal: process {data[1]}, value {value_text(number(data[2:]))}",
        FAILURE: lambda: f"failure: process {data[1]}, round {data[2]}, step {data[3]:02X}, "
        f"set {number(data[4:12]):016X}, count {data[12]}",
        END: lambda: "the end",
    }
    if data[0] in known and len(data) == LENGTHS[data[0]]:
        return known[data[0]]()
    return f"kind {data[0]:02X}, {counted(len(data), 'byte')}"


def shown(line, most=72):
    """A line of any bytes, for the eye."""
    text = "".join(chr(byte) if 0x20 <= byte < 0x7F else f"\\x{byte:02X}" for byte in line[: most + 1])
    return text if len(line) <= most else text[:most] + ".."


# ---- words


def verb(processes, one, more):
    """Who does something, as a sentence begins."""
    return names(processes).capitalize() + " " + (one if len(processes) == 1 else more)


def counted(count, noun):
    return f"{count} {noun}" + ("" if count == 1 else "es" if noun.endswith("s") else "s")


def names(processes):
    """Processes in words, neighbours joined: 'process 4', 'processes 2, 5 to 9'."""
    ids = sorted(process if isinstance(process, int) else process.id for process in processes)
    if not ids:
        return "no process"
    parts, start = [], ids[0]
    for this, after in zip(ids, ids[1:] + [None]):
        if after == this + 1:
            continue
        parts.append(f"{start}" if start == this else f"{start}, {this}" if this == start + 1 else f"{start} to {this}")
        start = after
    return ("process " if len(ids) == 1 else "processes ") + ", ".join(parts)


def carried_text(run, process):
    """What was carried of a process's frames, and what was dropped; nothing if it sent nothing."""
    messages = [message for played in run.rounds for message in played.messages if message.sender is process]
    dropped = sum(not message.carried for message in messages)
    if not messages and not process.data and not process.commits:
        return ""
    carried = f"{counted(process.data, 'data frame')}, {counted(process.commits, 'commit')} carried"
    return carried + (f", {counted(dropped, 'frame')} dropped" if dropped else "")


def dropped_text(played):
    """What the switch dropped in a round, and why; nothing if it dropped nothing."""
    data, commits = ([message.recipient for message in played.dropped(kind)] for kind in (DATA, COMMIT))
    if not data:  # no commit is sent where no data are
        return ""
    what = f"data to {names(data)}" + (f" and commits to {names(commits)}" if commits else "")
    if {process.id for process in data} == {process.id for process in commits}:
        what = f"data and commits to {names(data)}"
    return f"{what} ({ended_text(data, ', ')})"


def ended_text(processes, joint):
    """Which of some processes have decided, and which have crashed."""
    ended = ((fate, [process for process in processes if process.end == end]) for end, fate in ((DECIDED, "decided"), (CRASHED, "crashed")))
    return joint.join(names(those) + f" {'has' if len(those) == 1 else 'have'} {fate}" for fate, those in ended if those)


def reasons_that_occur(run):
    return sorted({reason for played in run.rounds for reason in played.reasons.values()})


def reason_lines(run):
    """The reasons as digits, a text for each round, in which each process has its place."""
    return ["".join(str(played.reasons[process.id]) for process in run.processes) for played in run.rounds]


def settled_text(run):
    """When a run settled, on which value, and who held it then; nothing of one that did not."""
    played = settling_round(run)
    if not played:
        return ""
    those, value = not_crashed(run, played), value_text(settled_value(run))
    held = f"all that have not crashed, {names(those)}, hold {value}"
    if len(those) == 1:
        held = f"{names(those)}, which alone has not crashed, holds {value}" if run.n > 1 else f"{names(those)} holds {value}"
    return f"Settled in round {played.number}: at its end {held}."


def failure_text(run, process):
    """What a failure line says."""
    failure, above = process.failure, run.n - process.id
    return f"crashes in round {failure.round}, " + {
        BEFORE_SENDING: "before it sends anything",
        DURING_DATA: "while sending data, to " + names(p for p in run.processes if failure.reaches(p)),
        DURING_COMMITS: f"while sending commits, after {failure.commits} of {above}",
    }[failure.step]
