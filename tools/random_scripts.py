"""Long random scripts: several houses, each with a schema that is accepted, over either kind of store."""
import random

from day_reference import Draft, Refused, TERMS, TESTS, page_of


def random_script(seed):
    """A script, and the pages that it loads, by name."""
    rng = random.Random(seed)
    lines, pages = [], {}
    for _ in range(rng.randint(1, 4)):
        house = HouseScript(rng, pages)
        lines += house.lines() + ["save out.page"]
        if rng.random() < 0.5:
            lines += ["house", *house.twin()]
        lines.append("house")
    return "\n".join(lines[:-1]), pages


class HouseScript:
    """Keeps its own set of triples, so that edits often name a triple that is there."""

    def __init__(self, rng, pages):
        self.rng, self.pages = rng, pages
        self.nodes = rng.choice([0, 1, 2, 3, 4, 5, 6, 8, 12, 30, 100, 255, 256, 300])
        self.labels = rng.choice([0, 1, 1, 2, 2, 3, 3, 4, 5, 8] + ([32] if self.nodes < 40 else []))
        self.properties = rng.sample(range(256), rng.choice([1, 2, 3, 5]))
        # nodes with 12 arcs only where there is no label, since every split of a node's arcs is tried
        self.wide = rng.random() < 0.3 and 2 <= self.nodes <= 4
        if self.wide:
            self.labels, self.properties = 0, rng.sample(range(256), 10)
        self.capacity = 512
        self.triples = set()

    def lines(self):
        rng = self.rng
        self.described = self.description() + self.schema()
        return (self.described + [self.put_line() for _ in range(self.first_puts())]
                + [self.store_line() for _ in range(rng.randint(0, 6))]
                + [line for _ in range(rng.randint(5, 60)) for line in self.day_lines()])

    def twin(self):
        """The same house over rows enough, which loads the page that was saved last."""
        return [f"store rows {self.nodes} 1024", *self.described[1:], "load out.page", "total", "sweep own",
                *self.helds(5)]

    def description(self):
        rng = self.rng
        lines = []
        if rng.random() < 0.5:
            rows = rng.choice([0, 1, 5, 30, 512, 1024, 1030])
            self.capacity = min(rows, 1024)
            lines.append(f"store rows {self.nodes} {rows}")
        else:
            lines.append(f"store chain {self.nodes}")
        for _ in range(rng.choice([0, self.nodes // 2, self.nodes, self.nodes + 1])):
            lines.append(self.form("term", TERMS, rng.choice(["iri", "iri", "iri", "blank", "text", "whole"])))
        for _ in range(rng.randint(0, 5)):
            lines.append(self.form("test", TESTS, rng.choice(sorted(TESTS))))
        return lines

    def form(self, name, forms, kind):
        numbers = sorted(self.rng.choice([-5, 0, 1, 2, 3, 7]) if part == "value" else self.rng.randrange(self.nodes + 2)
                         for part in forms[kind])
        return " ".join([name, kind, *map(str, numbers)])

    # The draft: tried until one is accepted

    def schema(self):
        lines = []
        for attempt in range(20):
            rows = self.draft_lines(negations=attempt < 15)
            lines += ["draft", *rows, "accept"]
            if accepted(rows):
                break
        return lines + ["strata"]

    def draft_lines(self, negations):
        rng = self.rng
        if not self.labels:
            return []
        lines = []
        sets = rng.randint(1, 4)
        for _ in range(sets):
            some = " ".join(map(str, rng.sample(self.properties, rng.randint(1, len(self.properties)))))
            lines.append(f"set {rng.choice([some, some, some, 'any', 'any but ' + some])}")
        triples = rng.randint(1, 10)
        lines += ["triple " + self.triple_row(row, sets) for row in range(triples)]
        shapes = rng.randint(1, 10)
        lines += ["shape " + self.shape_row(row, triples, negations) for row in range(shapes)]
        return lines + [f"label {rng.randrange(shapes)}" for _ in range(self.labels)]

    def triple_row(self, row, sets):
        rng = self.rng
        kind = rng.choice(["arc", "arc", "empty", "each", "some", "times", "times"])
        if kind == "empty":
            return kind
        if kind == "arc" or row == 0:
            return f"arc {rng.randrange(sets)} {rng.randrange(self.labels)}"
        if kind == "times":
            least = rng.choice([0, 0, 0, 1, 2, 255])
            return f"times {rng.randrange(row)} {least} {rng.choice(['*', '*', least, min(least + 2, 255), 255])}"
        return f"{kind} {rng.randrange(row)} {rng.randrange(row)}"

    def shape_row(self, row, triples, negations):
        rng = self.rng
        kind = rng.choice(["hood", "hood", "hood", "value", "and", "or"] + ["not"] * negations)
        if kind == "value":
            return f"value {rng.randint(0, 5)}"
        if kind == "hood" or row == 0:
            return f"hood {rng.randrange(triples)}"
        if kind == "not":
            return f"not {rng.randrange(row)}"
        return f"{kind} {rng.randrange(row)} {rng.randrange(row)}"

    # The calls

    def first_puts(self):
        if self.wide:
            return 14 * self.nodes
        return self.rng.choice([0, self.nodes, 2 * self.nodes, 2 * self.nodes, 600 if self.nodes > 200 else 5])

    def node(self):
        if not self.nodes or self.rng.random() < 0.03:
            return self.rng.choice([self.nodes, 256, 65535])
        return self.rng.randrange(min(self.nodes, 256))

    def label(self):
        if not self.labels or self.rng.random() < 0.03:
            return self.rng.choice([self.labels, 255])
        return self.rng.randrange(self.labels)

    def triple(self):
        """A triple, mostly of a node with few arcs."""
        for _ in range(10):
            s = self.node()
            if self.wide or len([t for t in self.triples if t[0] == s]) < 5:
                break
        return s, self.rng.choice(self.properties), self.node()

    def present(self):
        return self.rng.choice(sorted(self.triples)) if self.triples else self.triple()

    def put_line(self):
        return self.adding("put")

    def adding(self, name):
        s, p, o = self.triple()
        fan = len([t for t in self.triples if t[0] == s])
        if s < min(self.nodes, 256) and o < min(self.nodes, 256) and fan < 12 and len(self.triples) < self.capacity:
            self.triples.add((s, p, o))
        return f"{name} {s} {p} {o}"

    def removing(self, name):
        s, p, o = self.present() if self.rng.random() < 0.85 else self.triple()
        self.triples.discard((s, p, o))
        return f"{name} {s} {p} {o}"

    def store_line(self):
        return self.rng.choice([self.put_line, lambda: self.removing("take"), self.question])()

    def question(self):
        rng = self.rng
        return rng.choice([f"fan {self.node()}", f"arcs {self.node()}", "total", f"literal {self.node()}",
                           f"holds {self.node()} {rng.randint(0, 6)}", f"typed {self.node()} {self.label()}", "untyped",
                           f"satisfies {self.node()} {self.label()}", "save out.page"])

    def day_lines(self):
        rng = self.rng
        kind = rng.choice(["add", "withdraw", "look", "look", "held", "sweep", "question", "correct", "late", "load"])
        if kind == "add":
            return [self.adding("add")]
        if kind == "withdraw":
            return [self.removing("withdraw")]
        if kind == "look":
            return [f"look {self.node()} {self.label()}"] + self.helds(rng.randint(0, 3))
        if kind == "held":
            return self.helds(rng.randint(1, 10))
        if kind == "sweep":
            return [self.sweep_line()]
        if kind == "correct":
            s, p, o = self.present()
            return [f"withdraw {s} {p} {o}", *self.helds(2), f"add {s} {p} {o}", *self.helds(2), "sweep own"]
        if kind == "load":
            return self.load_lines()
        if kind == "late" and rng.random() < 0.2:
            return [f"put {self.node()} 1 {self.node()}", "accept", "strata"]
        return [self.question()]

    def helds(self, count):
        return [f"held {self.node()} {self.label()}" for _ in range(count)]

    def load_lines(self):
        """A page of a few triples, perhaps damaged."""
        rng = self.rng
        nodes = min(self.nodes, 256)
        triples = {self.triple() for _ in range(rng.randint(0, 4))} | {self.present() for _ in range(rng.choice([0, 0, 1]))}
        page = bytearray(page_of(nodes, {t for t in triples if t[0] < nodes and t[2] < 256}))
        damage = rng.choice(["none", "none", "byte", "cut", "longer"])
        if damage == "byte":
            page[rng.randrange(len(page))] = rng.choice([0, 1, 12, 13, 255])
        elif damage == "cut":
            page = page[:rng.randrange(len(page))]
        elif damage == "longer":
            page += bytes(rng.randint(1, 2))
        name = f"{len(self.pages)}.page"
        self.pages[name] = bytes(page)
        return [f"load {name}", *self.helds(2), f"list {name}"]

    def sweep_line(self):
        rng = self.rng
        room = rng.choice(["", "", "", f"room {self.nodes * self.labels} ", f"room {rng.randrange(9000)} "])
        top = rng.choice([2, 4, 32, 34])
        strata = [rng.randint(0 if rng.random() < 0.02 else 1, top) for _ in range(self.labels + rng.choice([0, 0, 1, -1]))]
        return "sweep " + room + rng.choice(["own", "own", "own", " ".join(map(str, strata)),
                                             " ".join(map(str, sorted(strata))), " ".join(["1"] * len(strata))])


def accepted(lines):
    draft = Draft()
    tables = {"set": draft.sets, "triple": draft.triples, "shape": draft.shapes, "label": draft.labels}
    for line in lines:
        name, *words = line.split()
        if name == "label":
            tables[name].append(int(words[0]))
        elif name == "set":
            tables[name].append(None)
        else:
            tables[name].append((words[0], *[None if word == "*" else int(word) for word in words[1:]]))
    try:
        draft.check()
    except Refused:
        return False
    return True
