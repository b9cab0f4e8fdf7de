#!/usr/bin/env python3
"""An independent reading of the script language, over sets of triples: prints what the program must print.

    tools/reference.py < SCRIPT          what the program must print; pages are read from the current folder
    tools/reference.py --random SEED     a long random script; the pages that it loads are written to the current folder

It shares nothing with the program but docs/RULES.md and docs/SCRIPT.md. The expected output that the gate compares
with is its output.
"""
import re
import sys

COMMANDS = ("a command: store, term, test, draft, set, triple, shape, label, accept, strata, "
            "put, take, fan, arc, arcs, total, literal, holds, typed, untyped, satisfies, satisfied, "
            "add, withdraw, look, held, sweep, load, save, list or house")
EXPECTED = {
    "kind": "a kind of store: chain NODES or rows NODES ROWS",
    "node": "a node from 0 to 65535",
    "count": "a number of nodes from 0 to 65535",
    "rows": "a number of rows from 0 to 65535",
    "property": "a property from 0 to 255",
    "place": "a place from 0 to 255",
    "test number": "a test number from 0 to 65535",
    "term": "a term: iri, blank, text or whole VALUE",
    "test": "a test: iri, blank, literal, text, whole LO HI or node FIRST LAST",
    "value": "a whole number from -2147483648 to 2147483647",
    "row": "a row from 0 to 255",
    "set": "a set: properties from 0 to 255, any, or any but properties",
    "label": "a label from 0 to 255",
    "triple": "a triple row: empty, arc SET LABEL, each ROW ROW, some ROW ROW or times ROW LEAST MOST",
    "shape": "a shape row: value TEST, hood ROW, and ROW ROW, or ROW ROW or not ROW",
    "least": "a least from 0 to 255",
    "most": "a most from 0 to 255, or * for none",
    "end": "the end of the line",
    "store": "a line that begins with store first",
    "one store": "one store only",
    "call": "a call, since the house is described before the first call",
    "edit": "add or withdraw, since the validator has the store",
    "strata": "own, or strata from 0 to 255",
    "room": "a number of bytes from 0 to 65535",
    "file": "the name of a file",
}
SENTENCES = {
    7: "the subject is not a node of the store",
    8: "the object is not a node of the store",
    9: "the subject is a literal",
    10: "the triple is present",
    11: "the subject has 12 arcs",
    12: "the store is full",
    13: "the triple is absent",
    14: "there is no such label",
    15: "there are fewer strata than labels",
    16: "the strata are no stratification",
    17: "the table has fewer bytes than pairs",
    18: "the page is too short for its nodes",
    19: "the page is of another number of nodes",
    20: "node {} has a fan above 12",
    21: "the length of the page does not fit its fans",
    22: "entry {} was {}",
}
NO_NODE = "there is no such node"
EDITS = {"put": ["node", "property", "node"], "take": ["node", "property", "node"]}
QUESTIONS = {
    "fan": ["node"],
    "arc": ["node", "place"],
    "arcs": ["node"],
    "total": [],
    "literal": ["node"],
    "holds": ["node", "test number"],
    "typed": ["node", "label"],
    "untyped": [],
    "satisfies": ["node", "label"],
    "satisfied": [],
    "list": ["file"],
}
CALLS = {
    "add": ["node", "property", "node"],
    "withdraw": ["node", "property", "node"],
    "look": ["node", "label"],
    "held": ["node", "label"],
    "load": ["file"],
}
ARGUMENTS = EDITS | QUESTIONS | CALLS
DRAFT = ("draft", "set", "triple", "shape", "label", "accept", "strata")
TERMS = {"iri": [], "blank": [], "text": [], "whole": ["value"]}
TESTS = {"iri": [], "blank": [], "literal": [], "text": [], "whole": ["value", "value"], "node": ["node", "node"]}
STORES = {"chain": ["count"], "rows": ["count", "rows"]}
TRIPLE_ROWS = {"empty": [], "arc": ["row", "label"], "each": ["row", "row"], "some": ["row", "row"],
               "times": ["row", "least", "most"]}
SHAPE_ROWS = {"value": ["test number"], "hood": ["row"], "and": ["row", "row"], "or": ["row", "row"], "not": ["row"]}
BYTES = ("row", "label", "least", "most", "property", "place", "set", "strata")
RANGES = {what: (0, 255 if what in BYTES else 65535) for what in EXPECTED} | {"value": (-2**31, 2**31 - 1)}


class Unreadable(Exception):
    """What was expected in a line."""


class NoFile(Exception):
    """Why a file could not be used."""


class Refused(Exception):
    def __init__(self, number, layer, *names, sentence=None):
        self.text = f"refused with {number} by the {layer}: {(sentence or SENTENCES[number]).format(*names)}"


# Reading a line


def whole(word, what):
    low, high = RANGES[what]
    if not re.fullmatch(r"[+-]?[0-9]+" if low < 0 else r"\+?[0-9]+", word) or not low <= int(word) <= high:
        raise Unreadable(EXPECTED[what])
    return int(word)


def argument(words, what):
    if not words:
        raise Unreadable(EXPECTED[what])
    word = words.pop(0)
    if what == "file":
        return word
    if what == "most" and word == "*":
        return None
    return whole(word, what)


def choice(words, what, forms):
    form = words.pop(0) if words else None
    if form not in forms:
        raise Unreadable(EXPECTED[what])
    return (form, *[argument(words, part) for part in forms[form]])


def read_set(words):
    properties, turn = set(), set.add
    if words[:1] == ["any"]:
        properties, turn, words = set(range(256)), set.discard, words[1:]
        if words and words.pop(0) != "but":
            raise Unreadable(EXPECTED["set"])
    for word in words:
        turn(properties, whole(word, "set"))
    return properties


def read_sweep(words):
    """The strata, or None for the schema's own, and the bytes of the table, or None for just enough."""
    room = None
    if words[:1] == ["room"]:
        words.pop(0)
        room = argument(words, "room")
    if words[:1] == ["own"]:
        if words[1:]:
            raise Unreadable(EXPECTED["end"])
        return None, room
    return [whole(word, "strata") for word in words][:33], room


def read(text):
    words = text.split()
    name = words.pop(0)
    if name == "set":
        return name, (read_set(words),)
    if name == "sweep":
        return name, read_sweep(words)
    if name == "store":
        parts = choice(words, "kind", STORES)
    elif name == "term":
        parts = choice(words, "term", TERMS)
    elif name == "test":
        parts = choice(words, "test", TESTS)
    elif name == "triple":
        parts = (choice(words, "triple", TRIPLE_ROWS),)
    elif name == "shape":
        parts = (choice(words, "shape", SHAPE_ROWS),)
    elif name == "label":
        parts = (argument(words, "row"),)
    elif name == "save":
        parts = (words.pop(0) if words else None,)
    elif name in DRAFT or name == "house":
        parts = ()
    elif name in ARGUMENTS:
        parts = tuple(argument(words, part) for part in ARGUMENTS[name])
    else:
        raise Unreadable(COMMANDS)
    if words:
        raise Unreadable(EXPECTED["end"])
    return name, parts


# Schemas


class Draft:
    """Four tables, what they are refused for, and which label refers to which."""

    def __init__(self):
        self.labels, self.shapes, self.triples, self.sets = [], [], [], []

    def copy(self):
        other = Draft()
        for table in ("labels", "shapes", "triples", "sets"):
            setattr(other, table, list(getattr(self, table)))
        return other

    def check(self):
        for rows, limit, words in ((self.labels, 32, "labels"), (self.shapes, 128, "shape rows"),
                                   (self.triples, 128, "triple rows"), (self.sets, 32, "property sets")):
            if len(rows) > limit:
                raise Refused(1, "schema", sentence=f"there are too many {words}: row {limit} is past the last")
        for label, row in enumerate(self.labels):
            if row >= len(self.shapes):
                raise Refused(2, "schema", sentence=f"label {label} is defined by no shape row")
        for r, (kind, *names) in enumerate(self.shapes):
            if kind == "hood" and names[0] >= len(self.triples) or kind in ("and", "or", "not") and max(names) >= r:
                raise Refused(3, "schema", sentence=f"shape row {r} names a row that it may not name")
        for r, (kind, *names) in enumerate(self.triples):
            fails = {"empty": lambda: False, "arc": lambda: names[0] >= len(self.sets) or names[1] >= len(self.labels),
                     "each": lambda: max(names) >= r, "some": lambda: max(names) >= r, "times": lambda: names[0] >= r}
            if fails[kind]():
                raise Refused(4, "schema", sentence=f"triple row {r} names a row, a set or a label that it may not name")
            if kind == "times" and names[2] is not None and names[2] < names[1]:
                raise Refused(5, "schema", sentence=f"triple row {r} has its most below its least")
        for label in range(len(self.labels)):
            for other in sorted(self.references(label)[1]):
                if label in self.reach(other):
                    raise Refused(6, "schema", sentence=f"the negated reference from label {label} to label {other} "
                                                        "lies on a cycle")

    def arc_rows(self, row):
        """The ARCs in a triple expression, each a set's number with a label."""
        kind, *names = self.triples[row]
        if kind == "arc":
            return {tuple(names)}
        return set().union(*[self.arc_rows(name) for name in names[:{"empty": 0, "times": 1}.get(kind, 2)]])

    def below(self, row):
        """The ARCs in a shape expression, and those that stand below a NOT."""
        kind, *names = self.shapes[row]
        if kind == "value":
            return set(), set()
        if kind == "hood":
            return self.arc_rows(names[0]), set()
        parts = [self.below(name) for name in names]
        found = set().union(*[part[0] for part in parts])
        return found, found if kind == "not" else set().union(*[part[1] for part in parts])

    def references(self, label):
        return tuple({other for _, other in found} for found in self.below(self.labels[label]))

    def reach(self, label):
        return closure([label], lambda other: self.references(other)[0])

    def own_strata(self):
        """Of the stratifications the library gives this one: how many labels each label reaches, itself included."""
        return [len(self.reach(label)) for label in range(len(self.labels))]

    def stratified_by(self, strata):
        for label in range(len(self.labels)):
            refers, negated = self.references(label)
            if not 1 <= strata[label] <= 32:
                return False
            if any(strata[label] < strata[other] for other in refers):
                return False
            if any(strata[label] == strata[other] for other in negated):
                return False
        return True


def closure(start, follow):
    seen, work = set(start), list(start)
    while work:
        for other in follow(work.pop()):
            if other not in seen:
                seen.add(other)
                work.append(other)
    return seen


# Satisfaction, by its definition: every way to split a set of arcs is tried


class Check:
    """One node's arcs under a typing; `holds` says which tests hold at the node."""

    def __init__(self, schema, typing, arcs, holds):
        self.schema, self.typing, self.arcs, self.holds = schema, typing, arcs, holds
        self.known = {}

    def shape(self, row):
        kind, *names = self.schema.shapes[row]
        if kind == "value":
            return self.holds(names[0])
        if kind == "hood":
            return self.meets(names[0], self.arcs)
        if kind == "not":
            return not self.shape(names[0])
        return {"and": all, "or": any}[kind](self.shape(name) for name in names)

    def meets(self, row, arcs):
        if (row, arcs) not in self.known:
            self.known[row, arcs] = self.meets_anew(row, arcs)
        return self.known[row, arcs]

    def meets_anew(self, row, arcs):
        kind, *names = self.schema.triples[row]
        if kind == "empty":
            return not arcs
        if kind == "arc":
            return len(arcs) == 1 and all(p in self.schema.sets[names[0]] and (o, names[1]) in self.typing
                                          for p, o in arcs)
        if kind == "some":
            return any(self.meets(name, arcs) for name in names)
        if kind == "each":
            return any(self.meets(names[0], part) and self.meets(names[1], arcs - part) for part in parts_of(arcs))
        # past one part for each arc the further parts are empty
        least, most = names[1], names[1] + len(arcs) if names[2] is None else min(names[2], names[1] + len(arcs))
        return any(self.splits(names[0], arcs, k) for k in range(least, most + 1))

    def splits(self, row, arcs, k):
        """Whether the arcs split into k parts that each meet the row."""
        if k == 0 or not arcs:
            return not arcs and (k == 0 or self.meets(row, arcs))
        if (row, arcs, k) not in self.known:
            # the parts are interchangeable: the first is the one with the least arc
            least = min(arcs)
            self.known[row, arcs, k] = any(
                self.meets(row, part | {least}) and self.splits(row, arcs - part - {least}, k - 1)
                for part in parts_of(arcs - {least}))
        return self.known[row, arcs, k]


def parts_of(arcs):
    arcs = list(arcs)
    return (frozenset(a for i, a in enumerate(arcs) if mask >> i & 1) for mask in range(1 << len(arcs)))


# A house


class House:
    def __init__(self):
        self.capacity, self.nodes = 512, None
        self.terms, self.tests = [], []
        self.triples, self.called = set(), False
        self.drafted, self.accepted = Draft(), Draft()
        self.typed_lines, self.checked_under = 0, set()
        self.validator = None

    def perform(self, name, parts):
        if name in DRAFT:
            return self.draft(name, parts)
        if name in ("store", "term", "test"):
            return self.describe(name, parts)
        if self.nodes is None:
            raise Unreadable(EXPECTED["store"])
        self.called = True
        if name in CALLS or name == "sweep":
            if self.validator is None:
                self.validator, self.accepted = Validator(self, self.accepted), Draft()
            return self.validator.perform(name, parts)
        if name in EDITS and self.validator:
            raise Unreadable(EXPECTED["edit"])
        return getattr(self, name)(*parts)

    def describe(self, name, parts):
        if self.called:
            raise Unreadable(EXPECTED["call"])
        if name == "store":
            if self.nodes is not None:
                raise Unreadable(EXPECTED["one store"])
            self.nodes = min(parts[1], 256)
            if parts[0] == "rows":
                self.capacity = min(parts[2], 1024)
            return f"{self.nodes} nodes"
        table = self.terms if name == "term" else self.tests
        table.append(parts)
        return f"{'node' if name == 'term' else 'test'} {len(table) - 1}"

    def draft(self, name, parts):
        tables = {"set": (self.drafted.sets, "set"), "triple": (self.drafted.triples, "triple row"),
                  "shape": (self.drafted.shapes, "shape row"), "label": (self.drafted.labels, "label")}
        if name in tables:
            table, words = tables[name]
            table.append(parts[0])
            return f"{words} {len(table) - 1}"
        if name == "draft":
            self.drafted = Draft()
            return "a new draft"
        if name == "strata":
            return " ".join(map(str, self.accepted.own_strata())) or "no labels"
        self.drafted.check()
        self.accepted = self.drafted.copy()
        return f"accepted, {len(self.accepted.labels)} labels"

    def schema(self):
        return self.validator.schema if self.validator else self.accepted

    def arcs_of(self, n):
        return frozenset((p, o) for s, p, o in self.triples if s == n)

    def refuse_put(self, s, p, o):
        for fails, number in ((s >= self.nodes, 7), (o >= self.nodes, 8), ((s, p, o) in self.triples, 10),
                              (len(self.arcs_of(s)) == 12, 11), (len(self.triples) == self.capacity, 12)):
            if fails:
                raise Refused(number, "store")

    def put(self, s, p, o):
        self.refuse_put(s, p, o)
        self.triples.add((s, p, o))
        return "accepted"

    def take(self, s, p, o):
        for fails, number in ((s >= self.nodes, 7), (o >= self.nodes, 8), ((s, p, o) not in self.triples, 13)):
            if fails:
                raise Refused(number, "store")
        self.triples.remove((s, p, o))
        return "accepted"

    def fan(self, n):
        return str(len(self.arcs_of(n)))

    def arc(self, n, place):
        # which arc stands at a place is the store's choice: scripts ask only where there is one arc or none
        arcs = list(self.arcs_of(n))
        if place >= len(arcs):
            return "no arc"
        assert len(arcs) == 1, "the order of a list is free"
        return "({}, {})".format(*arcs[0])

    def arcs(self, n):
        return pairs_text(sorted(self.arcs_of(n))) or "none"

    def total(self):
        return f"{len(self.triples)} of {self.capacity}"

    def is_literal(self, n):
        return n < len(self.terms) and self.terms[n][0] in ("text", "whole")

    def literal(self, n):
        return "yes" if self.is_literal(n) else "no"

    def passes(self, n, t):
        if n >= len(self.terms) or t >= len(self.tests):
            return False
        term, test = self.terms[n], self.tests[t]
        if test[0] == "node":
            return test[1] <= n <= test[2]
        if test[0] == "whole":
            return term[0] == "whole" and test[1] <= term[1] <= test[2]
        if test[0] == "literal":
            return term[0] in ("text", "whole")
        return term[0] == test[0]

    def holds(self, n, t):
        return "yes" if self.passes(n, t) else "no"

    def typed(self, n, label):
        self.typed_lines += 1
        self.checked_under.add((n, label))
        return f"{self.typed_lines} pairs"

    def untyped(self):
        self.typed_lines, self.checked_under = 0, set()
        return "0 pairs"

    def check(self, schema, typing, n, label):
        check = Check(schema, typing, self.arcs_of(n), lambda test: self.passes(n, test))
        return check.shape(schema.labels[label])

    def satisfies(self, n, label):
        there = n < self.nodes and label < len(self.schema().labels)
        return "yes" if there and self.check(self.schema(), self.checked_under, n, label) else "no"

    def satisfied(self):
        pairs = [(n, label) for n in range(self.nodes) for label in range(len(self.schema().labels))
                 if self.check(self.schema(), self.checked_under, n, label)]
        return pairs_text(pairs) or "none"

    def save(self, file):
        page = page_of(self.nodes, self.triples)
        if file is None:
            # the order of a list is the store's choice: scripts print a page only where no node has two arcs
            assert all(len(self.arcs_of(n)) < 2 for n in range(self.nodes)), "the order of a list is free"
            return f"{len(page)} bytes: {' '.join(map(str, page))}"
        try:
            with open(file, "wb") as out:
                out.write(page)
        except OSError:
            raise NoFile("the file cannot be written")
        return f"{len(page)} bytes"

    def list(self, file):
        """A page is lawful if it loads into an empty store of its own node count with room, and no literal."""
        page = read_file(file)
        empty = House()
        empty.perform("store", ("rows", int.from_bytes(page[:2], "little") if len(page) > 1 else 0, 1024))
        try:
            Validator(empty, Draft()).load_page(page)
        except Refused as refused:
            return f"not a lawful page: {refused.text}"
        entries = entries_of(empty.nodes, page)
        rows = [f"\n  node {n}: {pairs_text((p, o) for s, p, o in entries if s == n) or 'none'}"
                for n in range(empty.nodes)]
        return f"{empty.nodes} nodes, {len(entries)} triples{''.join(rows)}"


# The validator: a set of triples and a set of held pairs


class Validator:
    def __init__(self, house, schema):
        self.house, self.schema = house, schema
        self.held_pairs, self.typing = set(), None
        self.asked = self.refused = self.dropped = 0

    def perform(self, name, parts):
        if name == "load":
            parts = (read_file(*parts),)
        self.asked += 1
        try:
            return getattr(self, {"load": "load_page"}.get(name, name))(*parts)
        except Refused:
            self.refused += 1
            raise

    def maximal(self):
        """The maximal typing: stratum by stratum the greatest set of pairs that each satisfy their definition."""
        if self.typing is None:
            strata = self.schema.own_strata()
            self.typing = set()
            for stratum in sorted(set(strata)):
                labels = [label for label, number in enumerate(strata) if number == stratum]
                self.typing |= {(n, label) for n in range(self.house.nodes) for label in labels}
                self.shrink(labels)
        return self.typing

    def shrink(self, labels):
        while True:
            wrong = [(n, label) for n in range(self.house.nodes) for label in labels if (n, label) in self.typing
                     and not self.house.check(self.schema, self.typing, n, label)]
            if not wrong:
                return
            self.typing.difference_update(wrong)

    def pairs(self):
        return {(n, label) for n in range(self.house.nodes) for label in range(len(self.schema.labels))}

    def leans_on(self, pair):
        n, label = pair
        return {(o, other) for row, other in self.schema.below(self.schema.labels[label])[0]
                for p, o in self.house.arcs_of(n) if p in self.schema.sets[row]}

    def edited(self, s):
        """Drops the pairs of every node that reaches s; answers how many were held."""
        into = {}
        for subject, _, o in self.house.triples:
            into.setdefault(o, set()).add(subject)
        upstream = closure([s], lambda n: into.get(n, ()))
        lost = {pair for pair in self.held_pairs if pair[0] in upstream}
        self.held_pairs -= lost
        self.dropped += len(lost)
        self.typing = None
        return f"accepted, {len(lost)} verdicts dropped"

    def add(self, s, p, o):
        for fails, number in ((s >= self.house.nodes, 7), (o >= self.house.nodes, 8), (self.house.is_literal(s), 9)):
            if fails:
                raise Refused(number, "validator")
        self.house.put(s, p, o)
        return self.edited(s)

    def withdraw(self, s, p, o):
        self.house.take(s, p, o)
        return self.edited(s)

    def refuse_pair(self, n, label):
        if n >= self.house.nodes:
            raise Refused(7, "validator", sentence=NO_NODE)
        if label >= len(self.schema.labels):
            raise Refused(14, "validator")

    def look(self, n, label):
        self.refuse_pair(n, label)
        self.held_pairs |= closure([(n, label)], self.leans_on)
        return "yes" if (n, label) in self.maximal() else "no"

    def held(self, n, label):
        self.refuse_pair(n, label)
        if (n, label) not in self.held_pairs:
            return "not held"
        return "yes" if (n, label) in self.maximal() else "no"

    def sweep(self, strata, room):
        labels = len(self.schema.labels)
        strata = self.schema.own_strata() if strata is None else strata
        if len(strata) < labels:
            raise Refused(15, "validator")
        if not self.schema.stratified_by(strata):
            raise Refused(16, "validator")
        if room is not None and room < self.house.nodes * labels:
            raise Refused(17, "validator")
        self.held_pairs = self.pairs()
        typing = sorted(self.maximal())
        return f"{len(typing)} pairs{': ' if typing else ''}{pairs_text(typing)}"

    def load_page(self, page):
        nodes = self.house.nodes
        if len(page) < 2 + nodes:
            raise Refused(18, "page")
        if int.from_bytes(page[:2], "little") != nodes:
            raise Refused(19, "page")
        fans = page[2:2 + nodes]
        for n, fan in enumerate(fans):
            if fan > 12:
                raise Refused(20, "page", n)
        if len(page) != 2 + nodes + 2 * sum(fans):
            raise Refused(21, "page")
        for i, entry in enumerate(entries_of(nodes, page)):
            try:
                self.add(*entry)
            except Refused as refused:
                raise Refused(22, "page", i, refused.text)
        return f"{sum(fans)} triples added"

    def summary(self):
        return (f"calls: {self.asked} asked, {self.refused} refused; "
                f"{len(self.held_pairs)} verdicts held, {self.dropped} dropped")


# Pages and texts


def entries_of(nodes, page):
    fans = page[2:2 + nodes]
    subjects = [n for n, fan in enumerate(fans) for _ in range(fan)]
    arcs = page[2 + nodes:]
    return list(zip(subjects, arcs[:len(subjects)], arcs[len(subjects):]))


def page_of(nodes, triples):
    arcs = sorted(triples)
    fans = [len([t for t in arcs if t[0] == n]) for n in range(nodes)]
    return nodes.to_bytes(2, "little") + bytes(fans + [p for _, p, _ in arcs] + [o for _, _, o in arcs])


def read_file(file):
    try:
        with open(file, "rb") as page:
            return page.read()
    except OSError:
        raise NoFile("the file cannot be read")


def pairs_text(pairs):
    return " ".join(f"({a}, {b})" for a, b in pairs)


def end_house(house):
    if house.validator:
        yield house.validator.summary()
    nodes = house.nodes or 0
    yield f"store: {nodes} nodes, {len(house.triples)} of {house.capacity} triples"
    for n in range(nodes):
        yield f"node {n}: {house.arcs(n)}"


def run(script):
    """The lines that the program must print."""
    house = House()
    for index, line in enumerate(script.splitlines(), 1):
        text = line.split("#")[0].strip()
        if not text:
            continue
        try:
            name, parts = read(text)
            if name == "house":
                yield from end_house(house)
                house = House()
                yield "house: a new house"
            else:
                yield f"{text}: {house.perform(name, parts)}"
        except Refused as refused:
            yield f"{text}: {refused.text}"
        except NoFile as reason:
            yield f"{text}: {reason}; nothing was done"
        except Unreadable as expected:
            yield f"line {index}: {text}: expected {expected}; nothing was done"
    yield from end_house(house)


def main():
    if sys.argv[1:2] == ["--random"]:
        sys.dont_write_bytecode = True
        from random_scripts import random_script
        script, pages = random_script(int(sys.argv[2]))
        for name, page in pages.items():
            with open(name, "wb") as out:
                out.write(page)
        print(script)
        return
    for line in run(sys.stdin.read()):
        print(line)


if __name__ == "__main__":
    main()
