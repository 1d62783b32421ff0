"""Makes trials for the order line reader and the hierarchy line reader.

usage: make_line_trials.py OUTDIR

Writes OUTDIR/stdin, the trials, and OUTDIR/stdout, the answers that the readers
must give. The answers are worked out here alone, in two independent ways that are
held against each other for every trial: the json module says which lines are of
the form and what their values are, and an automaton built from the grammar says
how far a line that is not of the form could still have become one.

A trial in stdin is a header line, some raw bytes and a line feed. The header is

    order PLACES A N M B
    hierarchy COORDINATES CORNERS REPLACEMENTS TAKEN A N M B

The first numbers are the places of the lists to be filled. The raw bytes are a head
of A bytes, a middle of M bytes and a tail of B bytes; the line to be read is the
head, N times the middle, and the tail.

An answer in stdout is one of the lines

    NUMBER PLACE                                                        refused
    ok COUNT LIST                                                       an order
    ok KIND VERTICES BASE CELLS REPLACEMENTS TAKEN LIST LIST LIST LIST  a hierarchy

The lists of a hierarchy are its coordinates, its corners (of the base cells, then
of the made cells), its replacement records (error, count taken, count made) and its
taken numbers. A LIST of up to 24 values is a colon and the values; a longer one is
a # and a hash of the values.

The trials are the same at every run.
"""

import json
import random
import re
import sys
from collections import Counter
from dataclasses import dataclass
from itertools import product
from pathlib import Path

SEED = 20240229

LONGEST_LINE = 65_536
MOST_DIGITS = 9
MOST_VERTICES = 4_096
MOST_CELLS = 16_384
MOST_REPLACEMENTS = 4_096
MOST_TAKEN = 16_384
LONGEST_SHOWN_LIST = 24

ORDER_PLACES = (32_768,)
HIERARCHY_PLACES = (12_288, 49_152, 12_288, 16_384)
# Room enough that only the fixed limits can be exceeded, not the places.
ROOMY_PLACES = (12_300, 49_160, 12_300, 16_400)


# ---------------------------------------------------------------- the automaton
#
# A part of a grammar is a function that adds its states to an automaton, beginning
# at a given state, and returns the state in which the part is complete.


class Automaton:
    """A nondeterministic automaton, whose sets of states are found when needed."""

    def __init__(self, grammar):
        self.skips = []  # for each state, the states reached without a byte
        self.moves = []  # for each state, pairs of the bytes and the state reached
        self.steps = {}  # (set of states, byte) -> set of states
        start = self.new_state()
        self.end = grammar(self, start)
        self.start = self.closure([start])
        assert self.all_states_can_end()

    def new_state(self):
        self.skips.append([])
        self.moves.append([])
        return len(self.skips) - 1

    def closure(self, states):
        reached = set(states)
        waiting = list(reached)
        while waiting:
            for state in self.skips[waiting.pop()]:
                if state not in reached:
                    reached.add(state)
                    waiting.append(state)
        return frozenset(reached)

    def step(self, states, byte):
        return self.closure(
            [to for state in states for wanted, to in self.moves[state] if byte in wanted]
        )

    def read(self, line):
        """Returns the length of the longest beginning of the line that may begin a
        line of the form, and whether the whole line is of the form."""
        states = self.start
        for place, byte in enumerate(line):
            key = (states, byte)
            states = self.steps.get(key)
            if states is None:
                states = self.steps[key] = self.step(*key)
            if not states:
                return place, False
        return len(line), self.end in states

    def all_states_can_end(self):
        """Whether every state leads to the end, so that a beginning of a line may
        begin a line of the form just when it leaves some state."""
        ending = {self.end}
        grown = True
        while grown:
            grown = False
            for state, (skips, moves) in enumerate(zip(self.skips, self.moves)):
                following = skips + [to for _, to in moves]
                if state not in ending and not ending.isdisjoint(following):
                    ending.add(state)
                    grown = True
        return len(ending) == len(self.skips)


def one_of(wanted):
    def build(automaton, start):
        end = automaton.new_state()
        automaton.moves[start].append((wanted, end))
        return end

    return build


def sequence(*parts):
    def build(automaton, start):
        for part in parts:
            start = part(automaton, start)
        return start

    return build


def choice(*parts):
    def build(automaton, start):
        ends = []
        for part in parts:
            first = automaton.new_state()
            automaton.skips[start].append(first)
            ends.append(part(automaton, first))
        end = automaton.new_state()
        for last in ends:
            automaton.skips[last].append(end)
        return end

    return build


def repeat(part):
    """The part any number of times, also not at all."""

    def build(automaton, start):
        loop = automaton.new_state()
        first = automaton.new_state()
        end = automaton.new_state()
        automaton.skips[start].append(loop)
        automaton.skips[loop] += [first, end]
        automaton.skips[part(automaton, first)].append(loop)
        return end

    return build


def optional(part):
    return choice(part, sequence())


# ------------------------------------------------------------------ the grammars

WHITE_SPACE = b" \t\r"
SPACES = repeat(one_of(WHITE_SPACE))


def token(part):
    return sequence(part, SPACES)


COMMA = token(one_of(b","))
NUMBER = token(
    sequence(
        optional(one_of(b"-")),
        choice(one_of(b"0"), sequence(one_of(b"123456789"), repeat(one_of(b"0123456789")))),
    )
)


def array(*items):
    """An array of just these items."""
    inner = [part for item in items for part in (COMMA, item)][1:]
    return sequence(token(one_of(b"[")), *inner, token(one_of(b"]")))


def array_of(item):
    """An array of any number of items, also none."""
    return array(optional(sequence(item, repeat(sequence(COMMA, item)))))


def hierarchy_of_kind(kind):
    vertex = array(NUMBER, NUMBER, NUMBER)
    cell = array(*[NUMBER] * kind)
    replacement = array(NUMBER, array_of(NUMBER), array_of(cell))
    return array(
        token(one_of(b"%d" % kind)), array_of(vertex), array_of(cell), array_of(replacement)
    )


ORDER_AUTOMATON = Automaton(sequence(SPACES, array_of(NUMBER)))
HIERARCHY_AUTOMATON = Automaton(
    sequence(SPACES, choice(hierarchy_of_kind(3), hierarchy_of_kind(2)))
)


# ------------------------------------------------- the form according to json


class Number(str):
    """The text of an integer, to be told from a JSON string."""


def refuse(text):
    raise ValueError(text)


def parse_json(line):
    """Returns the value of the line with its integers as texts, None if there is none."""
    if b"\n" in line or not line.isascii():
        return None
    try:
        return json.loads(
            line.decode("ascii"), parse_int=Number, parse_float=refuse, parse_constant=refuse
        )
    except (ValueError, RecursionError):
        return None


def is_number(value):
    return isinstance(value, Number)


def is_list(value, is_item, count=None):
    return (
        isinstance(value, list)
        and (count is None or len(value) == count)
        and all(is_item(item) for item in value)
    )


def parse_order(line):
    value = parse_json(line)
    return value if is_list(value, is_number) else None


def parse_hierarchy(line):
    value = parse_json(line)
    if not isinstance(value, list) or len(value) != 4:
        return None
    kind, vertices, base, replacements = value
    if not is_number(kind) or kind not in ("3", "2"):
        return None

    def is_vertex(item):
        return is_list(item, is_number, 3)

    def is_cell(item):
        return is_list(item, is_number, int(kind))

    def is_replacement(item):
        return (
            isinstance(item, list)
            and len(item) == 3
            and is_number(item[0])
            and is_list(item[1], is_number)
            and is_list(item[2], is_cell)
        )

    shaped = (
        is_list(vertices, is_vertex)
        and is_list(base, is_cell)
        and is_list(replacements, is_replacement)
    )
    return value if shaped else None


# ------------------------------------------------------------------- the answers


def show_list(values):
    if len(values) <= LONGEST_SHOWN_LIST:
        return " :" + "".join(f" {value}" for value in values)
    mixed = 0
    for value in values:
        mixed = (mixed * 31 + (value + 1_000_000_000)) % 4_294_967_296
    return f" #{mixed}"


def answer_order(numbers, places):
    if not 1 <= len(numbers) <= places:
        return "3 4"
    return f"ok {len(numbers)}" + show_list([int(number) for number in numbers])


def joined(lists):
    return [item for items in lists for item in items]


def answer_hierarchy(value, *places):
    kind, vertices, base, replacements = value
    cells = base + joined(made for _, _, made in replacements)
    coordinates = joined(vertices)
    corners = joined(cells)
    records = joined((error, len(taken), len(made)) for error, taken, made in replacements)
    taken = joined(taken for _, taken, _ in replacements)

    lists = [[int(item) for item in items] for items in (coordinates, corners, records, taken)]
    within_limits = (
        1 <= len(vertices) <= MOST_VERTICES,
        1 <= len(base) and len(cells) <= MOST_CELLS,
        len(replacements) <= MOST_REPLACEMENTS,
        len(taken) <= MOST_TAKEN,
    )
    for place in range(4):
        if not within_limits[place] or len(lists[place]) > places[place]:
            return f"3 {place}"
    counts = (len(vertices), len(base), len(cells), len(replacements), len(taken))
    return f"ok {kind} {' '.join(map(str, counts))}" + "".join(map(show_list, lists))


def place_of_big_number(line):
    """The place of the first number out of range in a line of the form, or None."""
    for number in re.finditer(rb"-?([0-9]+)", line):
        if len(number[1]) > MOST_DIGITS:
            return number.start()
    return None


READERS = {
    "order": (ORDER_AUTOMATON, parse_order, answer_order),
    "hierarchy": (HIERARCHY_AUTOMATON, parse_hierarchy, answer_hierarchy),
}


def answer(trial):
    line = trial.line()
    if len(line) > LONGEST_LINE:
        return f"18 {LONGEST_LINE}"
    automaton, parse, answer_value = READERS[trial.reader]
    value = parse(line)
    place, is_whole = automaton.read(line)
    assert is_whole == (value is not None), line
    if value is None:
        return f"1 {place}"
    place = place_of_big_number(line)
    if place is not None:
        return f"2 {place}"
    return answer_value(value, *trial.places)


# -------------------------------------------------------------------- the trials


@dataclass(frozen=True)
class Trial:
    reader: str
    places: tuple
    head: bytes
    times: int = 0
    middle: bytes = b""
    tail: bytes = b""

    def line(self):
        return self.head + self.middle * self.times + self.tail

    def written(self):
        numbers = (*self.places, len(self.head), self.times, len(self.middle), len(self.tail))
        header = f"{self.reader} {' '.join(map(str, numbers))}\n"
        return header.encode() + self.head + self.middle + self.tail + b"\n"


def order(head, times=0, middle=b"", tail=b"", places=ORDER_PLACES):
    return Trial("order", places, head, times, middle, tail)


def hierarchy(head, times=0, middle=b"", tail=b"", places=HIERARCHY_PLACES):
    return Trial("hierarchy", places, head, times, middle, tail)


def filled(make, length, head, byte, tail):
    """A trial of the given length, filled by one byte between head and tail."""
    return make(head, length - len(head) - len(tail), byte, tail)


def compact(value):
    return json.dumps(value, separators=(",", ":")).encode()


def spaced(line, rng):
    """The line with white space at random around its tokens."""

    def space():
        count = rng.choice((0, 0, 0, 1, 1, 2, 3))
        return bytes(rng.choice(WHITE_SPACE) for _ in range(count))

    tokens = re.findall(rb"[-0-9]+|[\[\],]", line)
    return space() + b"".join(part + space() for part in tokens)


LIKELY_BYTES = b'[],-0123456789 \t\r\n.eE+"{}:xO'


def random_byte(rng):
    return bytes([rng.choice(LIKELY_BYTES) if rng.random() < 0.8 else rng.randrange(256)])


def damaged(line, rng):
    """The line with one byte deleted, inserted, replaced or swapped, or cut off there."""
    at = rng.randrange(len(line))
    before, byte, after = line[:at], line[at : at + 1], line[at + 1 :]
    way = rng.choice(("delete", "insert", "replace", "swap", "truncate"))
    if way == "delete":
        return before + after
    if way == "insert":
        return before + random_byte(rng) + byte + after
    if way == "replace":
        return before + random_byte(rng) + after
    if way == "swap":
        other = rng.randrange(len(line))
        swapped = bytearray(line)
        swapped[at], swapped[other] = swapped[other], swapped[at]
        return bytes(swapped)
    return before


def damaged_more(line, rng):
    """The line damaged once, or now and then a few times."""
    for _ in range(rng.choice((1, 1, 1, 1, 2, 3))):
        line = damaged(line, rng) if line else random_byte(rng)
    return line


def random_number(rng, most_digits=MOST_DIGITS):
    return rng.choice((1, 1, -1)) * rng.randrange(10 ** rng.randint(1, most_digits))


def random_numbers(rng, count):
    return [random_number(rng) for _ in range(count)]


def truncations(line):
    return [line[:length] for length in range(len(line) + 1)]


# ------------------------------------------------------------ the trials of orders


def plain_orders():
    lines = (
        b"[2,50,0,0,4O0,400,5]", b"[2,50,0,0,400,400,5]", b"[3,1000000000]", b"", b" ", b"\t\r ",
        b"[]", b"[ ]", b"[\t\r]", b" [ ] ", b"[", b"]", b"[[", b"]]", b"[]]", b"[][]", b",",
        b"[,]", b"[,1]", b"[1,]", b"[1,,2]", b"[1, ]", b"[1 2]", b"[1\t2]", b"[1 ,2]", b"[- 1]",
        b"[1\n]", b"\n[1]", b"[1]\n", b"[1]\r", b"[1]\r\n", b"[1],", b"[1]]", b"[1] x", b"[1]1",
        b"[1] [2]", b"[[1]]", b"[1,[2]]", b"[[]]", b"[1", b"[1 ", b"[1,", b"[-", b"1,2,3",
        b"[1.0]", b"[1.]", b"[.1]", b"[1e2]", b"[1E2]", b"[1e+2]", b"[0e0]", b"[0x1]", b"[1_0]",
        b"[1;2]", b"[1]//", b"[/**/1]", b"(1)", b"{}", b"[{}]", b'{"a":1}', b'"1"', b'["1"]',
        b'[""]', b"['1']", b"[true]", b"[false]", b"[null]", b"true", b"null", b"[NaN]", b"NaN",
        b"[Infinity]", b"[-Infinity]", b"[1,NaN]", b"[1,-Infinity]", b"[1\x00]", b"\x00",
        b"\xef\xbb\xbf[1]", b"[1\xc2\xa02]", b"[1,\xc2\xa02]", b"[\xd9\xa1]", b"[1\x0b]",
        b"[1\x0c]",
    )
    return [order(line) for line in lines]


def orders_of_odd_numbers():
    numbers = (
        b"0", b"-0", b"00", b"-00", b"000", b"01", b"-01", b"0-1", b"+1", b"+0", b"1.0", b"-1.0",
        b"1e2", b"1E2", b"-1e2", b"--1", b"-+1", b"+-1", b"-", b"--", b"+", b"1-", b"1-1", b"1+1",
        b"0.", b".0", b"-.5", b"0 0", b"- 0", b"NaN", b"-NaN", b"Infinity", b"-Infinity", b"0x10",
    )
    frames = ((b"", b""), (b"[", b"]"), (b"[7,", b"]"), (b"[", b",7]"), (b"[ ", b" ]"), (b"[", b""))
    return [order(before + number + after) for number in numbers for before, after in frames]


def orders_with_every_byte():
    """Every byte at every kind of place, as an insertion and as the end of the line."""
    frames = (
        (b"", b"[1]"),  # before [
        (b"[", b"1]"),  # after [
        (b"[12", b",3]"),  # after a digit
        (b"[0", b",3]"),  # after a 0
        (b"[-", b"5]"),  # after -
        (b"[1 ", b",2]"),  # after a number's space
        (b"[1,", b"2]"),  # after a comma
        (b"[1]", b" "),  # after ]
        (b"[12", b"34]"),  # in the middle of a number
    )
    trials = []
    for (before, after), value in product(frames, range(256)):
        byte = bytes([value])
        trials.append(order(before + byte + after))
        trials.append(order(before + byte))
    return trials


def orders_with_big_numbers():
    """Numbers on both sides of the range and of the widths of machine words."""
    sizes = [10**9 - 2, 10**9 - 1, 10**9, 10**9 + 1, 10**10 - 1, 10**10]
    for bits in (30, 31, 32, 33, 63, 64, 65, 128):
        sizes += [2**bits - 1, 2**bits, 2**bits + 1, 2**bits + 12_345]
    frames = ("[{}]", "[1,{}]", "[{},1]", "[ {} ]", "[1, {},2]", "[0{}]", "[{}", "[{}.0]", "[{}{}]")
    return [
        order(frame.replace("{}", sign + str(size)).encode())
        for size, sign, frame in product(sizes, ("", "-"), frames)
    ]


def orders_with_many_digits():
    frames = ((b"[", b"]"), (b"[1,", b"]"), (b"[", b",1]"), (b"[1, ", b" ,2]"), (b"[", b""))
    trials = [
        order(before + sign + zeros, digits, b"7", after)
        for digits in (1, 8, 9, 10, 11, 20, 60_000)
        for sign in (b"", b"-")
        for zeros in (b"", b"0", b"00")
        for before, after in frames
    ]
    trials += [order(b"[", digits, b"0", b"]") for digits in (1, 2, 9, 10, 60_000)]
    return trials


def orders_of_several_faults():
    """The form is judged before the range, and the range before the count."""
    big_and_malformed = (
        b"[1000000000,x]", b"[x,1000000000]", b"[1000000000", b"[1000000000,", b"[1000000000 1]",
        b"[1,1000000000]]", b"[-1000000000,01]", b"[01,-1000000000]", b"[1000000000.5]",
        b"[1000000000e1]", b"[1,,1000000000]", b"1000000000", b"-1000000000]",
    )
    trials = [order(line, places=(places,)) for line in big_and_malformed for places in (0, 1, 9)]
    two_big = (b"[1000000000,2000000000]", b"[1,-1000000000,1000000000]", b"[ -9999999999 , 1]")
    trials += [order(line, places=(places,)) for line in two_big for places in (0, 1, 2, 3)]
    malformed = (b"", b"[", b"[1,2", b"[1,2,]", b"[1,2]]", b"[1,2.5]")
    trials += [order(line, places=(places,)) for line in malformed for places in (0, 1)]
    return trials


def order_of(count, places):
    """An order of so many values."""
    if count == 0:
        return order(b"[]", places=(places,))
    if count < 30:
        return order(compact(list(range(7, 7 + count))), places=(places,))
    return order(b"[8", count - 1, b",9", b"]", places=(places,))


def orders_of_counts():
    """Counts around the places. 32,767 values are the most that fit in a line."""
    trials = []
    for count in (0, 1, 2, 7, 12, 24, 25, 300, 32_767, 32_768):
        for places in (count, count - 1, count + 1, count + 3, 0):
            if places >= 0:
                trials.append(order_of(count, places))
    for count in (23, 24, 25, 26):
        trials.append(order(compact([(-7) ** (i % 10) for i in range(count)])))
    trials.append(order(b"[0", 99, b",1,-23,456,999999999,-999999999", b"]"))
    return trials


def orders_around_the_longest():
    frames = (
        (b"", b" ", b"[1,2]"),
        (b"[1,2]", b" ", b""),
        (b"[1,2]", b"\t", b""),
        (b"[1,2]", b"\r", b""),
        (b"[", b" ", b"]"),
        (b"[", b"\r", b"-5]"),
        (b"[1", b"\t", b",2]"),
        (b"[1,", b" ", b"2]"),
        (b"[", b"7", b"]"),
        (b"[-", b"7", b"]"),
        (b"[1,2,", b"9", b",3]"),
        (b"[", b" ", b"1000000000]"),
        (b"[1000000000", b" ", b"]"),
        (b"", b" ", b""),
        (b"", b"[", b""),
        (b"", b"7", b""),
        (b"", b"\x00", b""),
        (b"[", b" ", b""),
        (b"[", b"7", b""),
        (b"[0", b" ", b","),
        (b"[0", b"0", b"]"),
        (b"[1]", b" ", b"x"),
        (b"[1]", b" ", b"]"),
        (b"[1]", b" ", b"\n"),
        (b"x[1]", b" ", b""),
        (b"[1", b" ", b"2]"),
    )
    lengths = (LONGEST_LINE - 1, LONGEST_LINE, LONGEST_LINE + 1)
    trials = [filled(order, length, *frame) for length, frame in product(lengths, frames)]
    for head in (b"[0", b"[10", b"[100", b"[ 0", b"[01", b"[0.", b"[-0"):
        for tail in (b"]", b" ]", b"] ", b",]", b","):
            trials.append(order(head, 32_766, b",0", tail))
    trials.append(filled(order, 70_000, b"[1]", b" ", b""))
    return trials


def random_orders(rng, count):
    trials = []
    for _ in range(count):
        size = rng.choice((1, 2, 3, 4, 5, 7, 7, 12, rng.randrange(40)))
        numbers = random_numbers(rng, size)
        if numbers and rng.random() < 0.1:
            numbers[rng.randrange(size)] = random_number(rng, 14)
        places = rng.choice((size, size + 1, max(size - 1, 0), *ORDER_PLACES * 5))
        line = compact(numbers)
        line = line if rng.random() < 0.2 else spaced(line, rng)
        trials.append(order(line, places=(places,)))
    return trials


def damaged_orders(rng, count):
    trials = []
    for _ in range(count):
        line = compact(random_numbers(rng, rng.randint(0, 9)))
        line = line if rng.random() < 0.5 else spaced(line, rng)
        trials.append(order(damaged_more(line, rng)))
    return trials


def truncated_orders(rng):
    lines = [b"[2,50,0,0,400,400,5]", b" [ -0 ,\t10\r, -999999999 ] ", b"[0,1000000000,-1]"]
    lines += [spaced(compact(random_numbers(rng, 6)), rng) for _ in range(4)]
    return [order(part) for line in lines for part in truncations(line)]


def order_trials(rng):
    return [
        *plain_orders(),
        *orders_of_odd_numbers(),
        *orders_with_every_byte(),
        *orders_with_big_numbers(),
        *orders_with_many_digits(),
        *orders_of_several_faults(),
        *orders_of_counts(),
        *orders_around_the_longest(),
        *random_orders(rng, 500),
        *damaged_orders(rng, 1_000),
        *truncated_orders(rng),
    ]


# ------------------------------------------------------- the trials of hierarchies

PATH = [2, [[0, 0, 0], [800, 0, 0], [400, 0, 90]], [[0, 1]], [[90, [0], [[0, 2], [2, 1]]]]]
SURFACE = [
    3,
    [
        [0, 0, 0], [400, 0, 0], [400, 400, 0], [0, 400, 0],
        [200, 200, 60], [200, 60, 20], [340, 200, 30], [290, 120, 50],
    ],
    [[0, 1, 2], [0, 2, 3]],
    [
        [60, [0, 1], [[0, 1, 4], [1, 2, 4], [2, 3, 4], [3, 0, 4]]],
        [20, [2], [[0, 1, 5], [1, 4, 5], [4, 0, 5]]],
        [30, [3], [[1, 2, 6], [2, 4, 6], [4, 1, 6]]],
        [10, [7, 11], [[4, 5, 7], [5, 1, 7], [1, 6, 7], [6, 4, 7]]],
    ],
]
PATH_LINE = compact(PATH)
SURFACE_LINE = compact(SURFACE)
EXAMPLES = (PATH_LINE, SURFACE_LINE)
# The places that just suffice for the examples.
PATH_PLACES = (9, 6, 3, 1)
SURFACE_PLACES = (24, 48, 12, 6)


def example_hierarchies(rng):
    trials = [hierarchy(line) for line in EXAMPLES]
    trials += [hierarchy(spaced(line, rng)) for line in EXAMPLES for _ in range(12)]
    return trials


def truncated_hierarchies(rng):
    lines = (PATH_LINE, spaced(PATH_LINE, rng))
    return [hierarchy(part) for line in lines for part in truncations(line)]


def hierarchies_with_stray_bytes():
    """A byte at every place of the path, as the end of the line and as an insertion."""
    trials = []
    for at in range(len(PATH_LINE) + 1):
        before, after = PATH_LINE[:at], PATH_LINE[at:]
        trials += [hierarchy(before + bytes([byte])) for byte in b"[],-05 \n."]
        trials += [hierarchy(before + bytes([byte]) + after) for byte in b"[],-01\r"]
    return trials


def hierarchies_of_kinds():
    kinds = (
        b"3", b"2", b" 3\t", b"\r2 ", b"4", b"1", b"0", b"5", b"9", b"03", b"02", b"00", b"3.0",
        b"2.0", b"33", b"22", b"32", b"23", b"30", b"20", b"-3", b"-2", b"+3", b"3e0", b"2E0",
        b"3 3", b'"3"', b"[3]", b"true", b"null", b"", b"-", b"3,3", b"1000000000", b"3000000000",
    )
    trials = [hierarchy(b"[" + kind + line[2:]) for kind in kinds for line in EXAMPLES]
    trials += [hierarchy(b"[" + kind + b",[],[],[]]") for kind in kinds]
    trials += [hierarchy(b"[" + bytes([byte]) + b",[[0,0,0]],[],[]]") for byte in range(256)]
    return trials


def sized(count):
    """An array of so many numbers."""
    return list(range(count))


def hierarchies_of_wrong_sizes():
    """Vertices, cells and replacements of every size, alone or after a right one."""
    values = []
    for kind, size in product((2, 3), range(6)):
        vertex, cell, item = sized(3), sized(kind), sized(size)
        values += [
            [kind, [item], [cell], []],
            [kind, [vertex, item, vertex], [cell], []],
            [kind, [vertex], [item], []],
            [kind, [vertex], [cell, item, cell], []],
            [kind, [vertex], [cell], [[1, [0], [item]]]],
            [kind, [vertex], [cell], [[1, [0], [cell, item]]]],
            [kind, [vertex], [cell], [[1, [0], [cell]], [1, [1], [item, cell]]]],
            [kind, [vertex], [cell], [[1, item, [cell]]]],
            [kind, [vertex], [cell], [item]],
            [kind, [vertex], [cell], [[1, [0], [cell], 0][:size]]],
            [kind, [vertex], [cell], [], [], []][:size],
        ]
    return [hierarchy(compact(value)) for value in values]


def lists_of(line):
    """The begin and end of every array in the line."""
    opened = []
    for place, byte in enumerate(line):
        if byte in b"[":
            opened.append(place)
        elif byte in b"]":
            yield opened.pop(), place + 1


def hierarchies_with_other_parts():
    """The path and the surface with each array made empty, or replaced by something."""
    others = (b"[]", b"[ ]", b"0", b"[[]]", b"[0]", b"{}", b"null", b"")
    return [
        hierarchy(line[:begin] + other + line[end:])
        for line, parts in ((PATH_LINE, others), (SURFACE_LINE, others[:1]))
        for begin, end in lists_of(line)
        for other in parts
    ]


def hierarchies_of_empty_lists():
    """Every choice of empty and filled lists, with places and without."""
    trials = []
    for kind in (2, 3):
        lists = ([sized(3)], [sized(kind)], [[5, [0], [sized(kind)]]])
        for chosen in product((False, True), repeat=3):
            value = [kind, *(part if full else [] for part, full in zip(lists, chosen))]
            for places in (HIERARCHY_PLACES, (0, 0, 0, 0), (3, 3, 3, 1)):
                trials.append(hierarchy(compact(value), places=places))
        for taken, made in product(([], [4]), ([], [sized(kind)])):
            value = [kind, [sized(3)], [sized(kind)], [[5, taken, made]]]
            trials.append(hierarchy(compact(value)))
            value[2] = []
            trials.append(hierarchy(compact(value)))
    return trials


def hierarchies_with_other_numbers():
    """The path and the surface with each number but the kind replaced."""
    others = (
        b"1000000000", b"-1000000000", b"999999999", b"-999999999", b"-0", b"01", b"-", b"1.5",
        b"1e3", b"[0]", b"true", b'"0"', b"", b"0,0", b"0 0",
    )
    return [
        hierarchy(line[: number.start()] + other + line[number.end() :])
        for line, parts in ((PATH_LINE, others), (SURFACE_LINE, others[:1]))
        for number in list(re.finditer(rb"[0-9]+", line))[1:]
        for other in parts
    ]


def hierarchies_of_scant_places():
    """Every choice of lists with just enough places, one place too few, and none."""
    trials = []
    for line, exact in ((PATH_LINE, PATH_PLACES), (SURFACE_LINE, SURFACE_PLACES)):
        for missing in product((0, 1), repeat=4):
            places = tuple(count - less for count, less in zip(exact, missing))
            trials.append(hierarchy(line, places=places))
        for at in range(4):
            for count in (0, exact[at] - 2, exact[at] - 1, exact[at], exact[at] + 1):
                places = HIERARCHY_PLACES[:at] + (max(count, 0),) + HIERARCHY_PLACES[at + 1 :]
                trials.append(hierarchy(line, places=places))
    return trials


def hierarchies_of_several_faults():
    """The form is judged before the range, the range before counts and places."""
    none = (0, 0, 0, 0)
    big = PATH_LINE.replace(b"90,[0]", b"1000000000,[0]")
    lines = (
        PATH_LINE,
        big,
        big[:-1],
        big + b"]",
        big.replace(b"800", b"-8000000000"),
        big.replace(b"[[0,1]]", b"[]"),
        big.replace(b"[0,1]", b"[0,1,2]"),
        big.replace(b"[400,0,90]", b"[400,0]"),
        b"[2,[],[],[[1000000000,[],[]]]]",
        b"[2,[],[],[[0,[],[]]",
        b"[3,[],[[0,0,0]],[[0,[-1000000000],[]]]]",
        b"[3,[],[[0,0]],[[0,[-1000000000],[]]]]",
    )
    return [hierarchy(line, places=places) for line in lines for places in (HIERARCHY_PLACES, none)]


def hierarchy_of(vertices, base, replacements, replacement=b"[0,[],[]]", places=HIERARCHY_PLACES):
    """A surface with lists of like items, the last of which may be long."""
    head = b"[3,[" + b",".join([b"[0,0,0]"] * vertices) + b"],["
    head += b",".join([b"[0,0,0]"] * base) + b"],["
    if replacements == 0:
        return hierarchy(head + b"]]", places=places)
    return hierarchy(head + replacement, replacements - 1, b"," + replacement, b"]]", places=places)


def hierarchies_of_many_vertices():
    trials = []
    tails = (b"],[[0,0,0]],[]]", b"],[[0,0,0]],[[0,[],[]]]]", b"],[],[]]", b"],[[0,0]],[]]")
    for count in (300, 4_095, 4_096, 4_097):
        for tail in tails:
            for coordinates in (3 * count, 3 * count - 1, 3 * count + 3, 12_288, 12_300):
                places = (coordinates, *HIERARCHY_PLACES[1:])
                trials.append(hierarchy(b"[3,[[0,0,0]", count - 1, b",[1,-2,3]", tail, places))
    return trials


def hierarchies_of_many_cells():
    """Many base cells and many made cells, with corner places around their need."""
    trials = []
    for count in (300, 8_000):
        for kind, cell in ((2, b",[4,5]"), (3, b",[4,5,6]")):
            first = cell[1:]
            head = b"[%d,[[0,0,0]],[" % kind + first
            need = kind * count
            for corners in (need - 1, need, need + 1):
                places = (3, corners, 3, 0)
                trials.append(hierarchy(head, count - 1, cell, b"],[]]", places))
                made = head + b"],[[7,[],[" + first
                trials.append(hierarchy(made, count - 2, cell, b"]]]]", places))
    return trials


def hierarchies_of_many_replacements():
    trials = []
    for count in (300, 4_095, 4_096, 4_097):
        for records in (3 * count - 1, 3 * count, 3 * count + 3, 12_288, 12_300):
            places = (*HIERARCHY_PLACES[:2], records, HIERARCHY_PLACES[3])
            for vertices, base in ((1, 1), (0, 1), (1, 0), (0, 0), (2, 3)):
                trials.append(hierarchy_of(vertices, base, count, places=places))
    for taken in (299, 300, 301):
        trials.append(hierarchy_of(1, 1, 300, b"[-1,[9],[]]", (3, 3, 900, taken)))
    for corners in (902, 903, 904):
        trials.append(hierarchy_of(1, 1, 300, b"[-1,[],[[7,8,9]]]", (3, corners, 900, 0)))
    return trials


def hierarchies_of_many_taken():
    trials = []
    for count in (300, 16_383, 16_384, 16_385):
        for places in (count - 1, count, count + 1, 16_384, 16_400):
            for base in (b"[[0,0]]", b"[]"):
                head = b"[2,[[0,0,0]]," + base + b",[[0,[8"
                kept = (*HIERARCHY_PLACES[:3], places)
                trials.append(hierarchy(head, count - 1, b",9", b"],[]]]]", kept))
    return trials


def hierarchies_of_taken_in_many_replacements():
    """16,384 and 16,385 taken numbers (1 and 1,092 times 15 and the last ones), spread
    over all replacements."""
    head = b"[2,[[0,0,0]],[[0,0]],[[1,[2],[]]"
    middle = b",[3,[" + b"4," * 14 + b"5],[]]"
    return [
        hierarchy(head, 1_092, middle, b",[6,[" + last + b"],[]]]]", (3, 2, 3_282, places))
        for last in (b"7,8,9", b"7,8,9,10")
        for places in (16_383, 16_384, 16_385, 16_400)
    ]


def hierarchies_within_roomy_places():
    """Counts beyond the fixed limits, while the lists have places enough."""
    return [
        hierarchy(b"[3,[[0,0,0]", 4_095, b",[0,0,0]", b"],[[0,0,0]],[]]", ROOMY_PLACES),
        hierarchy(b"[3,[[0,0,0]", 4_096, b",[0,0,0]", b"],[[0,0,0]],[]]", ROOMY_PLACES),
        hierarchy(b"[3,[[0,0,0]", 4_096, b",[0,0,0]", b"],[],[]]", ROOMY_PLACES),
        hierarchy_of(1, 1, 4_096, places=ROOMY_PLACES),
        hierarchy_of(1, 1, 4_097, places=ROOMY_PLACES),
        hierarchy_of(1, 0, 4_097, places=ROOMY_PLACES),
        hierarchy(b"[3,[[0,0,0]],[[0,0,0]],[[0,[0", 16_383, b",0", b"],[]]]]", ROOMY_PLACES),
        hierarchy(b"[3,[[0,0,0]],[[0,0,0]],[[0,[0", 16_384, b",0", b"],[]]]]", ROOMY_PLACES),
        hierarchy(b"[3,[[0,0,0]],[],[[0,[0", 16_384, b",0", b"],[]]]]", ROOMY_PLACES),
        hierarchy(b"[3,[],[[0,0,0]],[[0,[0", 16_384, b",0", b"],[]]]]", ROOMY_PLACES),
    ]


def hierarchies_around_the_longest():
    frames = [(line, b" ", b"") for line in EXAMPLES]
    frames += [(b"", b"\t", line) for line in EXAMPLES]
    frames += [(PATH_LINE[:at], b"\r", PATH_LINE[at:]) for at in (1, 2, 3, 4, 5, 6, 30, 50, 60)]
    frames += [
        (PATH_LINE, b" ", b"x"),
        (PATH_LINE[:-1], b" ", b""),
        (b"", b" ", b""),
        (b"", b"[", b""),
        (b"[3,", b"[", b""),
        (b"[3,[[0,0,", b"7", b"]],[[0,0,0]],[]]"),
        (b"[3,[[0,0,0]],[[0,0,0]],[[-", b"7", b",[],[]]]]"),
        (b"[3,[[0,0,0]],[[0,0,0]],[[0,[", b"7", b"],[]]]]"),
        (b"[3,[[0,0,0]],[[0,0,0]],[[0,[0", b"0", b"],[]]]]"),
    ]
    lengths = (LONGEST_LINE, LONGEST_LINE + 1)
    return [filled(hierarchy, length, *frame) for length, frame in product(lengths, frames)]


def random_hierarchy(rng):
    """Any small hierarchy; only its structure is right."""
    kind = rng.choice((2, 3))

    def cells(least, most):
        return [random_numbers(rng, kind) for _ in range(rng.randint(least, most))]

    vertices = [random_numbers(rng, 3) for _ in range(rng.randint(1, 5))]
    replacements = [
        [random_number(rng), random_numbers(rng, rng.randint(0, 4)), cells(0, 3)]
        for _ in range(rng.randint(0, 4))
    ]
    return [kind, vertices, cells(1, 4), replacements]


def needed_places(value):
    kind, vertices, base, replacements = value
    cells = len(base) + sum(len(made) for _, _, made in replacements)
    taken = sum(len(taken) for _, taken, _ in replacements)
    return (3 * len(vertices), kind * cells, 3 * len(replacements), taken)


def random_hierarchies(rng, count):
    trials = []
    for _ in range(count):
        value = random_hierarchy(rng)
        line = compact(value)
        line = spaced(line, rng) if rng.random() < 0.3 else line
        places = HIERARCHY_PLACES
        if rng.random() < 0.5:
            # Now and then a list is too short.
            spare = (0, 0, 0, 0, 1, 2, -1)
            places = tuple(max(need + rng.choice(spare), 0) for need in needed_places(value))
        trials.append(hierarchy(line, places=places))
    return trials


def damaged_hierarchies(rng, count):
    trials = []
    for number in range(count):
        line = (PATH_LINE, SURFACE_LINE, compact(random_hierarchy(rng)))[number % 3]
        line = spaced(line, rng) if rng.random() < 0.3 else line
        trials.append(hierarchy(damaged_more(line, rng)))
    return trials


def hierarchy_trials(rng):
    return [
        *example_hierarchies(rng),
        *truncated_hierarchies(rng),
        *hierarchies_with_stray_bytes(),
        *hierarchies_of_kinds(),
        *hierarchies_of_wrong_sizes(),
        *hierarchies_with_other_parts(),
        *hierarchies_of_empty_lists(),
        *hierarchies_with_other_numbers(),
        *hierarchies_of_scant_places(),
        *hierarchies_of_several_faults(),
        *hierarchies_of_many_vertices(),
        *hierarchies_of_many_cells(),
        *hierarchies_of_many_replacements(),
        *hierarchies_of_many_taken(),
        *hierarchies_of_taken_in_many_replacements(),
        *hierarchies_within_roomy_places(),
        *hierarchies_around_the_longest(),
        *random_hierarchies(rng, 150),
        *damaged_hierarchies(rng, 240),
    ]


# ------------------------------------------------------------------- the whole


def check_known_answers():
    """Holds the answers against some that were found by hand."""
    known = (
        (order(b""), "1 0"),
        (order(b"[2,50,0,0,4O0,400,5]"), "1 11"),
        (order(b"[1000000000,x]"), "1 12"),
        (order(b"[1,01]"), "1 4"),
        (order(b"[1"), "1 2"),
        (order(b"[3,1000000000]"), "2 3"),
        (order(b"[3, -1000000000]", places=(0,)), "2 4"),
        (order(b"[ ]"), "3 4"),
        (order(b"[1,2]", places=(1,)), "3 4"),
        (order(b" [1,-0 , -23]\r"), "ok 3 : 1 0 -23"),
        (order(b"[0", 24, b",0", b"]"), f"ok 25{show_list([0] * 25)}"),
        (filled(order, 65_536, b"[1]", b" ", b""), "ok 1 : 1"),
        (filled(order, 65_537, b"[1]", b" ", b""), "18 65536"),
        (hierarchy(b"[3,[],[],[]]"), "3 0"),
        (hierarchy(b"[03,[],[],[]]"), "1 1"),
        (hierarchy(b"[33,[],[],[]]"), "1 2"),
        (hierarchy(b"[3,[[0,0,0]],[[0,0]],[]]"), "1 18"),
        (hierarchy(b"[2,[[0,0,0]],[[0,0]],[]]"), "ok 2 1 1 1 0 0 : 0 0 0 : 0 0 : :"),
        (hierarchy_of(0, 1, 4_097), "3 0"),
        (hierarchy_of(1, 0, 4_097), "3 1"),
        (hierarchy_of(1, 1, 4_097), "3 2"),
        (
            hierarchy(PATH_LINE),
            "ok 2 3 1 3 1 1 : 0 0 0 800 0 0 400 0 90 : 0 1 0 2 2 1 : 90 1 2 : 0",
        ),
    )
    for trial, expected in known:
        assert answer(trial) == expected, (trial, expected, answer(trial))


def report(trials, answers):
    """Prints how often each kind of answer is given by each reader."""
    counts = Counter((trial.reader, text.split()[0]) for trial, text in zip(trials, answers))
    for reader in READERS:
        kinds = " ".join(f"{kind}: {counts[reader, kind]}" for kind in ("ok", "18", "1", "2", "3"))
        total = sum(1 for trial in trials if trial.reader == reader)
        print(f"{reader}: {total} trials; {kinds}", file=sys.stderr)


def main(arguments):
    if len(arguments) != 1:
        sys.exit("usage: make_line_trials.py OUTDIR")
    check_known_answers()
    rng = random.Random(SEED)
    trials = order_trials(rng) + hierarchy_trials(rng)
    answers = [answer(trial) for trial in trials]
    outdir = Path(arguments[0])
    outdir.mkdir(parents=True, exist_ok=True)
    (outdir / "stdin").write_bytes(b"".join(trial.written() for trial in trials))
    (outdir / "stdout").write_bytes("".join(text + "\n" for text in answers).encode())
    report(trials, answers)


if __name__ == "__main__":
    main(sys.argv[1:])
