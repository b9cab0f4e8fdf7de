#!/usr/bin/env python3
"""An independent reading of the script language, over sets of triples: prints what the program must print.

    tools/reference.py < SCRIPT

It shares nothing with the program but docs/SCRIPT.md. The expected output that the gate compares with is its output.
"""
import sys

COMMANDS = ("a command: store, term, test, draft, set, triple, shape, label, accept, strata, "
            "put, take, fan, arc, arcs, total, literal, holds, typed, untyped, satisfies or satisfied")
EXPECTED = {
    "kind": "a kind of store: chain NODES or rows NODES ROWS",
    "node": "a node from 0 to 65535",
    "count": "a number of nodes from 0 to 65535",
    "rows": "a number of rows from 0 to 65535",
    "property": "a property from 0 to 255",
    "place": "a place from 0 to 255",
    "test number": "a test number from 0 to 65535",
    "term": "a term: iri, blank, text or whole VALUE",
    "test": "a test: iri, blank, literal, text, whole LO HI or node FIRST LAST",
    "value": "a whole number from -2147483648 to 2147483647",
    "row": "a row from 0 to 255",
    "set": "a set: properties from 0 to 255, any, or any but properties",
    "label": "a label from 0 to 255",
    "triple": "a triple row: empty, arc SET LABEL, each ROW ROW, some ROW ROW or times ROW LEAST MOST",
    "shape": "a shape row: value TEST, hood ROW, and ROW ROW, or ROW ROW or not ROW",
    "least": "a least from 0 to 255",
    "most": "a most from 0 to 255, or * for none",
    "end": "the end of the line",
    "store": "a line that begins with store first",
    "one store": "one store only",
    "call": "a call, since the house is described before the first call",
}
SENTENCES = {
    7: "the subject is not a node of the store",
    8: "the object is not a node of the store",
    10: "the triple is present",
    11: "the subject has 12 arcs",
    12: "the store is full",
    13: "the triple is absent",
}
ARGUMENTS = {
    "put": ["node", "property", "node"],
    "take": ["node", "property", "node"],
    "fan": ["node"],
    "arc": ["node", "place"],
    "arcs": ["node"],
    "total": [],
    "literal": ["node"],
    "holds": ["node", "test number"],
    "typed": ["node", "label"],
    "untyped": [],
    "satisfies": ["node", "label"],
    "satisfied": [],
}
DRAFT = ("draft", "set", "triple", "shape", "label", "accept", "strata")
TRIPLE_ROWS = {"empty": [], "arc": ["row", "label"], "each": ["row", "row"], "some": ["row", "row"],
               "times": ["row", "least", "most"]}
SHAPE_ROWS = {"value": ["test number"], "hood": ["row"], "and": ["row", "row"], "or": ["row", "row"], "not": ["row"]}
RANGES = {"row": (0, 255), "label": (0, 255), "least": (0, 255), "most": (0, 255), "node": (0, 65535), "count": (0, 65535), "rows": (0, 65535), "property": (0, 255), "place": (0, 255),
          "test number": (0, 65535), "value": (-2**31, 2**31 - 1)}


class Unreadable(Exception):
    pass


def number(words, what):
    if what == "most" and words[:1] == ["*"]:
        words.pop(0)
        return None
    low, high = RANGES[what]
    try:
        value = int(words.pop(0))
    except (IndexError, ValueError):
        raise Unreadable(EXPECTED[what])
    if not low <= value <= high:
        raise Unreadable(EXPECTED[what])
    return value


def choice(words, what, forms):
    form = words.pop(0) if words else None
    if form not in forms:
        raise Unreadable(EXPECTED[what])
    return (form, *[number(words, argument) for argument in forms[form]])


def read_set(words):
    properties, turn = set(), set.add
    if words[:1] == ["any"]:
        properties, turn, words = set(range(256)), set.discard, words[1:]
        if words and words.pop(0) != "but":
            raise Unreadable(EXPECTED["set"])
    for word in words:
        if not word.isdigit() or int(word) > 255:
            raise Unreadable(EXPECTED["set"])
        turn(properties, int(word))
    return properties


class Draft:
    """Four tables, what they are refused for, and which label refers to which."""

    def __init__(self):
        self.labels, self.shapes, self.triples, self.sets = [], [], [], []

    def refusal(self):
        for rows, limit, words in ((self.labels, 32, "labels"), (self.shapes, 128, "shape rows"),
                                   (self.triples, 128, "triple rows"), (self.sets, 32, "property sets")):
            if len(rows) > limit:
                return 1, f"there are too many {words}: row {limit} is past the last"
        for label, row in enumerate(self.labels):
            if row >= len(self.shapes):
                return 2, f"label {label} is defined by no shape row"
        for r, (kind, *names) in enumerate(self.shapes):
            if kind == "hood" and names[0] >= len(self.triples) or kind in ("and", "or", "not") and max(names) >= r:
                return 3, f"shape row {r} names a row that it may not name"
        for r, (kind, *names) in enumerate(self.triples):
            fails = {"empty": lambda: False, "arc": lambda: names[0] >= len(self.sets) or names[1] >= len(self.labels),
                     "each": lambda: max(names) >= r, "some": lambda: max(names) >= r, "times": lambda: names[0] >= r}
            if fails[kind]():
                return 4, f"triple row {r} names a row, a set or a label that it may not name"
            if kind == "times" and names[2] is not None and names[2] < names[1]:
                return 5, f"triple row {r} has its most below its least"
        for label in range(len(self.labels)):
            for other in sorted(self.references(label)[1]):
                if label in self.reach(other):
                    return 6, f"the negated reference from label {label} to label {other} lies on a cycle"
        return None

    def arcs(self, row):
        kind, *names = self.triples[row]
        if kind == "arc":
            return {names[1]}
        return set().union(*[self.arcs(name) for name in names[:{"empty": 0, "times": 1}.get(kind, 2)]])

    def below(self, row):
        """The labels that an expression refers to, and those that stand below a NOT."""
        kind, *names = self.shapes[row]
        if kind == "value":
            return set(), set()
        if kind == "hood":
            return self.arcs(names[0]), set()
        parts = [self.below(name) for name in names]
        refers = set().union(*[part[0] for part in parts])
        return refers, refers if kind == "not" else set().union(*[part[1] for part in parts])

    def references(self, label):
        return self.below(self.labels[label])

    def reach(self, label):
        seen, work = {label}, [label]
        while work:
            for other in self.references(work.pop())[0] - seen:
                seen.add(other)
                work.append(other)
        return seen


class House:
    def __init__(self):
        self.capacity = 512
        self.typing = set()
        self.terms, self.tests, self.nodes = [], [], None
        self.triples, self.called = set(), False
        self.drafted, self.accepted = Draft(), Draft()

    def read(self, text):
        words = text.split()
        name = words.pop(0)
        if name == "store":
            parts = choice(words, "kind", {"chain": ["count"], "rows": ["count", "rows"]})
        elif name == "term":
            parts = choice(words, "term", {"iri": [], "blank": [], "text": [], "whole": ["value"]})
        elif name == "test":
            parts = choice(words, "test", {"iri": [], "blank": [], "literal": [], "text": [],
                                           "whole": ["value", "value"], "node": ["node", "node"]})
        elif name == "set":
            return name, (read_set(words),)
        elif name == "triple":
            parts = (choice(words, "triple", TRIPLE_ROWS),)
        elif name == "shape":
            parts = (choice(words, "shape", SHAPE_ROWS),)
        elif name == "label":
            parts = (number(words, "row"),)
        elif name in DRAFT:
            parts = ()
        elif name in ARGUMENTS:
            parts = tuple(number(words, argument) for argument in ARGUMENTS[name])
        else:
            raise Unreadable(COMMANDS)
        if words:
            raise Unreadable(EXPECTED["end"])
        return name, parts

    def draft(self, name, parts):
        tables = {"set": (self.drafted.sets, "set"), "triple": (self.drafted.triples, "triple row"),
                  "shape": (self.drafted.shapes, "shape row"), "label": (self.drafted.labels, "label")}
        if name in tables:
            table, words = tables[name]
            table.append(parts[0])
            return f"{words} {len(table) - 1}"
        if name == "draft":
            self.drafted = Draft()
            return "a new draft"
        if name == "strata":
            # of the stratifications the library gives this one: how many labels each label reaches, itself included
            strata = [len(self.accepted.reach(label)) for label in range(len(self.accepted.labels))]
            return " ".join(map(str, strata)) or "no labels"
        refusal = self.drafted.refusal()
        if refusal:
            return f"refused with {refusal[0]} by the schema: {refusal[1]}"
        self.accepted = Draft()
        for table in ("labels", "shapes", "triples", "sets"):
            setattr(self.accepted, table, list(getattr(self.drafted, table)))
        return f"accepted, {len(self.accepted.labels)} labels"

    def perform(self, name, parts):
        if name in DRAFT:
            return self.draft(name, parts)
        if name in ARGUMENTS:
            if self.nodes is None:
                raise Unreadable(EXPECTED["store"])
            self.called = True
            return getattr(self, name)(*parts)
        if self.called:
            raise Unreadable(EXPECTED["call"])
        if name == "store":
            if self.nodes is not None:
                raise Unreadable(EXPECTED["one store"])
            self.nodes = min(parts[1], 256)
            if parts[0] == "rows":
                self.capacity = min(parts[2], 1024)
            return f"{self.nodes} nodes"
        table = self.terms if name == "term" else self.tests
        table.append(parts)
        return f"{'node' if name == 'term' else 'test'} {len(table) - 1}"

    def refused(self, number):
        return f"refused with {number} by the store: {SENTENCES[number]}"

    def put(self, s, p, o):
        fan = len([t for t in self.triples if t[0] == s])
        for fails, number in ((s >= self.nodes, 7), (o >= self.nodes, 8), ((s, p, o) in self.triples, 10),
                              (fan == 12, 11), (len(self.triples) == self.capacity, 12)):
            if fails:
                return self.refused(number)
        self.triples.add((s, p, o))
        return "accepted"

    def take(self, s, p, o):
        for fails, number in ((s >= self.nodes, 7), (o >= self.nodes, 8), ((s, p, o) not in self.triples, 13)):
            if fails:
                return self.refused(number)
        self.triples.remove((s, p, o))
        return "accepted"

    def fan(self, n):
        return str(len([t for t in self.triples if t[0] == n]))

    def arc(self, n, place):
        # which arc stands at a place is the store's choice: scripts ask only where there is one arc or none
        arcs = [t for t in self.triples if t[0] == n]
        if place >= len(arcs):
            return "no arc"
        assert len(arcs) == 1, "the order of a list is free"
        return f"({arcs[0][1]}, {arcs[0][2]})"

    def arcs(self, n):
        arcs = sorted((p, o) for s, p, o in self.triples if s == n)
        return " ".join(f"({p}, {o})" for p, o in arcs) or "none"

    def total(self):
        return f"{len(self.triples)} of {self.capacity}"

    def literal(self, n):
        return "yes" if n < len(self.terms) and self.terms[n][0] in ("text", "whole") else "no"

    def holds(self, n, t):
        if n >= len(self.terms) or t >= len(self.tests):
            return "no"
        term, test = self.terms[n], self.tests[t]
        if test[0] == "node":
            yes = test[1] <= n <= test[2]
        elif test[0] == "whole":
            yes = term[0] == "whole" and test[1] <= term[1] <= test[2]
        elif test[0] == "literal":
            yes = term[0] in ("text", "whole")
        else:
            yes = term[0] == test[0]
        return "yes" if yes else "no"


    def typed(self, n, label):
        self.pairs = getattr(self, "pairs", 0) + 1
        self.typing.add((n, label))
        return f"{self.pairs} pairs"

    def untyped(self):
        self.pairs, self.typing = 0, set()
        return "0 pairs"

    def meets(self, row, arcs):
        """Whether a set of arcs meets a triple row: every way to split it is tried."""
        kind, *names = self.accepted.triples[row]
        if kind == "empty":
            return not arcs
        if kind == "arc":
            return len(arcs) == 1 and all(p in self.accepted.sets[names[0]] and (o, names[1]) in self.typing for p, o in arcs)
        if kind == "some":
            return any(self.meets(name, arcs) for name in names)
        if kind == "each":
            return any(self.meets(names[0], part) and self.meets(names[1], arcs - part) for part in parts_of(arcs))
        least, most = names[1], names[2]
        return any(self.splits(names[0], arcs, k) for k in range(least, (least + len(arcs) if most is None else min(most, least + len(arcs))) + 1))

    def splits(self, row, arcs, k):
        if k == 0:
            return not arcs
        if not arcs:
            return self.meets(row, arcs)
        return any(self.meets(row, part) and self.splits(row, arcs - part, k - 1) for part in parts_of(arcs))

    def shape(self, row, n):
        kind, *names = self.accepted.shapes[row]
        if kind == "value":
            return self.holds(n, names[0]) == "yes"
        if kind == "hood":
            return self.meets(names[0], frozenset((p, o) for s, p, o in self.triples if s == n))
        if kind == "not":
            return not self.shape(names[0], n)
        return {"and": all, "or": any}[kind](self.shape(name, n) for name in names)

    def satisfies(self, n, label):
        there = n < self.nodes and label < len(self.accepted.labels)
        return "yes" if there and self.shape(self.accepted.labels[label], n) else "no"

    def satisfied(self):
        pairs = [(n, label) for n in range(self.nodes) for label in range(len(self.accepted.labels)) if self.satisfies(n, label) == "yes"]
        return " ".join(f"({n}, {label})" for n, label in pairs) or "none"


def parts_of(arcs):
    arcs = list(arcs)
    return [frozenset(a for i, a in enumerate(arcs) if mask >> i & 1) for mask in range(1 << len(arcs))]


def main():
    house = House()
    for index, line in enumerate(sys.stdin.read().splitlines(), 1):
        text = line.split("#")[0].strip()
        if not text:
            continue
        try:
            print(f"{text}: {house.perform(*house.read(text))}")
        except Unreadable as expected:
            print(f"line {index}: {text}: expected {expected}; nothing was done")
    nodes = house.nodes or 0
    print(f"store: {nodes} nodes, {len(house.triples)} of {house.capacity} triples")
    for n in range(nodes):
        print(f"node {n}: {house.arcs(n)}")


main()
