#!/usr/bin/env python3
"""An independent model of trees, strips, tickets and tables, after docs/FORMATS.md and over Python's hashlib.

`tests/model.py write` makes the shipped examples and the expected outputs of the programs anew, and
`tests/model.py check` says whether the files in the repository are what it would write.
"""
import hashlib
import pathlib
import re
import sys

TOP = pathlib.Path(__file__).resolve().parent.parent
LEAVES = 1 << 20


def sha256(data):
    return hashlib.sha256(data).digest()


class Sealed:
    kind, width = 1, 32

    def leaf(self, number, token):
        return sha256(token)

    def join(self, left, right):
        return sha256(left + right)

    def reads(self, data):
        return True


class Dummy:
    kind, width = 2, 5
    broken = b"\xff" * 5

    def span(self, first, height):
        if height <= 20 and first % (1 << height) == 0 and first + (1 << height) <= LEAVES:
            return first.to_bytes(4, "big") + bytes([height])
        return None

    def leaf(self, number, token):
        return self.span(number, 0) or self.broken

    def join(self, left, right):
        if self.broken in (left, right):
            return self.broken
        first, height = int.from_bytes(left[:4], "big"), left[4]
        if right[4] != height or int.from_bytes(right[:4], "big") != first + (1 << height):
            return self.broken
        return self.span(first, height + 1) or self.broken

    def reads(self, data):
        return data == self.broken or self.span(int.from_bytes(data[:4], "big"), data[4]) == data


MAKERS = {1: Sealed(), 2: Dummy()}
NAMES = {"sealed": MAKERS[1], "dummy": MAKERS[2]}


def token(seed, number):
    return sha256(seed + number.to_bytes(4, "big"))


def tree(maker, tokens):
    """The rows of the full tree, from the leaves to the root."""
    rows = [[maker.leaf(n, token) for n, token in enumerate(tokens)]]
    while len(rows[-1]) > 1:
        below = rows[-1]
        rows.append([maker.join(below[i], below[i + 1]) for i in range(0, len(below), 2)])
    return rows


def strip(maker, rows, tokens, number):
    height = len(rows) - 1
    path = b"".join(rows[t][(number >> t) ^ 1] for t in range(height))
    head = bytes([6, maker.kind, height]) + number.to_bytes(4, "big")
    return head + bytes([32]) + tokens[number] + bytes([height]) + path


def fault(maker, data):
    """The place and the section of the first fault, or None."""
    size = len(data)
    if size < 1:
        return (size, 1)
    if data[0] != 6:
        return (0, 1)
    if size < 2:
        return (size, 1)
    if data[1] != maker.kind:
        return (1, 1)
    if size < 3:
        return (size, 1)
    height = data[2]
    if not 1 <= height <= 20:
        return (2, 1)
    if size < 7:
        return (size, 1)
    if int.from_bytes(data[3:7], "big") >= 1 << height:
        return (3, 1)
    if size < 8:
        return (size, 2)
    if data[7] != 32:
        return (7, 2)
    if size < 40:
        return (size, 2)
    if size < 41:
        return (size, 3)
    if data[40] != height:
        return (40, 3)
    for place in range(41, 41 + height * maker.width, maker.width):
        if size < place + maker.width:
            return (size, 3)
        if not maker.reads(data[place:place + maker.width]):
            return (place, 3)
    if size > 41 + height * maker.width:
        return (41 + height * maker.width, 3)
    return None


def verdict(root, data):
    maker = MAKERS.get(data[1] if len(data) > 1 else 1, MAKERS[1])
    found = fault(maker, data)
    if found:
        return "refused 11 %d %d" % found
    if len(root) != maker.width:
        return "refused 7 %d" % maker.width
    height, number = data[2], int.from_bytes(data[3:7], "big")
    node = maker.leaf(number, data[8:40])
    for t in range(height):
        other = data[41 + t * maker.width:41 + (t + 1) * maker.width]
        node = maker.join(other, node) if number >> t & 1 else maker.join(node, other)
    return "yes" if node == root else "no"


def damaged(data, masks):
    """The bytes themselves, each byte changed in turn by each mask, and every shorter prefix."""
    yield "whole", data
    for i in range(len(data)):
        for by in masks:
            yield "byte %d by %d" % (i, by), data[:i] + bytes([data[i] ^ by]) + data[i + 1:]
    for size in range(len(data)):
        yield "cut to %d" % size, data[:size]


def damaged_strip(data):
    yield from damaged(data, (1, 128))
    yield "one more", data + b"\x00"
    yield "doubled", data + data


def pairs():
    """Roots and strips of several heights and both kinds, and some that do not fit."""
    seed = sha256(b"course certificates, autumn")
    tokens = [token(seed, n) for n in range(32)]
    for kind in (1, 2):
        maker = MAKERS[kind]
        for height, number in ((4, 5), (1, 0), (5, 31)):
            rows = tree(maker, tokens[:1 << height])
            yield "kind %d height %d number %d" % (kind, height, number), rows[-1][0], strip(maker, rows, tokens, number)
    rows = tree(MAKERS[1], tokens[:16])
    good = strip(MAKERS[1], rows, tokens, 5)
    yield "another root", rows[3][0], good
    yield "root too short", rows[4][0][:31], good
    yield "root too long", rows[4][0] + b"\x00", good
    yield "no root", b"", good
    yield "unknown kind", rows[4][0], good[:1] + b"\x03" + good[2:]
    rows = tree(MAKERS[2], tokens[:16])
    good = strip(MAKERS[2], rows, tokens, 5)
    yield "root that is no span", b"\x00\x00\x00\x01\x04", good
    yield "root of another kind", tree(MAKERS[1], tokens[:16])[4][0], good
    yield "broken sibling and root", Dummy.broken, good[:41] + Dummy.broken + good[46:]


SEED = sha256(b"a seed that is no secret")


def job(name, height, subtree, seed=SEED):
    """A ticket."""
    return ("maker %s\nheight %s\nsubtree %s\nseed %s\n" % (name, height, subtree, seed.hex())).encode()


TICKET = job("dummy", 12, 3)


def fields(text):
    """The maker's name, the heights and the seed of a ticket, or None."""
    number = r"(?:[1-9][0-9]?)"
    whole = re.fullmatch(rb"maker (dummy|sealed)\nheight (%b)\nsubtree (%b)\nseed ([0-9a-f]{64})\n" % ((number.encode(),) * 2), text)
    if whole:
        return whole[1].decode(), int(whole[2]), int(whole[3]), bytes.fromhex(whole[4].decode())
    return None


def ticket(text):
    """What a ticket asks for, or the line and the column of the first byte that no ticket has there."""
    asked = fields(text)
    if asked:
        name, height, subtree, seed = asked
        return "%s %d %d %d" % (name, height, subtree, int.from_bytes(token(seed, 0)[:4], "big"))
    place = max(agree(shape, text) for shape in shapes())
    before = text[:place]
    return "refused 15 %d %d" % (1 + before.count(b"\n"), place - 1 - before.rfind(b"\n"))


def shapes():
    """The tickets, as lists of which bytes may stand at each place: by maker and by the heights' lengths."""
    digits, first, hexes = b"0123456789", b"123456789", b"0123456789abcdef"
    for name in (b"dummy", b"sealed"):
        for tall in ([first], [first, digits]):
            for small in ([first], [first, digits]):
                yield ([bytes([b]) for b in b"maker " + name + b"\nheight "] + tall + [bytes([b]) for b in b"\nsubtree "]
                       + small + [bytes([b]) for b in b"\nseed "] + [hexes] * 64 + [b"\n"])


def agree(shape, text):
    """How many bytes of the text stand where the shape has them."""
    count = 0
    for allowed, byte in zip(shape, text):
        if byte not in allowed:
            break
        count += 1
    return count


def damaged_ticket(text):
    yield from damaged(text, (1, 64))
    yield "one more", text + b"\n"


def bad_shape(height, subtree):
    """The number and the value of the refusal of two heights, or None."""
    if not 1 <= height <= 20:
        return (1, height)
    if not 1 <= subtree <= 10 or height % subtree:
        return (2, subtree)
    return None


def cells(height, subtree):
    """The table's cells, section by section, for heights that are in order."""
    levels = height // subtree
    nodes = sum(2 ** k for k in range(1, subtree + 1))
    tails = sum((level - 1) * subtree + 1 for level in range(2, levels))
    return 1 + levels * nodes + (levels - 1) * nodes + tails


def table_size(height, subtree):
    bad = bad_shape(height, subtree)
    return "refused %d %d" % bad if bad else str(cells(height, subtree))


LISTING_CELLS = 2000


def listing(text):
    """The lines that the program listing prints for a ticket."""
    asked = fields(text)
    if not asked:
        return [ticket(text)]
    name, height, subtree, seed = asked
    bad = bad_shape(height, subtree)
    if bad:
        return ["refused %d" % bad[0]]
    if cells(height, subtree) > LISTING_CELLS:
        return ["refused 3"]
    rows = tree(NAMES[name], [token(seed, n) for n in range(1 << height)])
    return ["root %s %d" % (rows[-1][0].hex(), sum(len(row) for row in rows))]


def listings():
    """Tickets that listing is tried on: small and great trees, heights that are refused, and no tickets."""
    other = sha256(b"another seed that is no secret")
    for name in NAMES:
        for height, subtree in ((1, 1), (2, 1), (4, 1), (4, 2), (12, 3), (10, 5), (9, 9), (16, 8)):
            yield "%s %d %d" % (name, height, subtree), job(name, height, subtree)
        yield "%s, another seed" % name, job(name, 4, 2, other)
    for height, subtree in ((21, 1), (99, 9), (21, 11)):
        yield "height %d, subtree %d: no such tree" % (height, subtree), job("sealed", height, subtree)
    for height, subtree in ((4, 3), (4, 8), (11, 10), (11, 11), (20, 11), (20, 20)):
        yield "height %d, subtree %d: no such subtree" % (height, subtree), job("dummy", height, subtree)
    for height, subtree in ((10, 10), (18, 9), (20, 10)):
        yield "height %d, subtree %d: the table is too short" % (height, subtree), job("dummy", height, subtree)
    good = job("sealed", 4, 2)
    at = good.rindex(b"seed ") + len(b"seed ")
    yield "empty", b""
    yield "no last line end", good[:-1]
    yield "one byte more", good + b"\n"
    yield "an upper-case digit", good[:at] + b"A" + good[at + 1:]
    yield "a seed too short", good[:-3] + good[-1:]
    yield "an unknown maker", job("seal", 4, 2)
    yield "a height of 0", job("sealed", 0, 2)
    yield "a height that begins with 0", job("sealed", "04", 2)
    yield "a height of three digits", job("sealed", 100, 2)
    yield "a subtree of 0", job("sealed", 4, 0)
    yield "other line ends", good.replace(b"\n", b"\r\n")


def as_case(name, text):
    """A case of tests/listing: its name, the input with its escapes, and the lines of the output."""
    escaped = text.decode().replace("\r", "\\r").replace("\n", "\\n")
    return "#%s\n<%s\n" % (name, escaped) + "".join(">%s\n" % line for line in listing(text))


ALL = 2 ** 64 - 1
FILLERS = {"dummy": Dummy.broken, "sealed": b"\xaa" * 32}


def units(height):
    """The nodes, by height and index, in the order in which a draft makes them, each with the stack then."""
    stack, leaves = [], 0
    for _ in range((2 << height) - 1):
        if len(stack) > 1 and stack[-1][0] == stack[-2][0]:
            (tall, index), _ = stack.pop(), stack.pop()
            stack.append((tall + 1, index // 2))
        else:
            stack.append((0, leaves))
            leaves += 1
        yield stack[-1], list(stack)


def counts(nodes):
    """How many of the nodes are leaves, and how many are not."""
    leaves = sum(tall == 0 for tall, _ in nodes)
    return leaves, len(nodes) - leaves


def homes(height, subtree):
    """The nodes that have a cell of their own, in the order of the cells: the root, then the first subtree of each level."""
    yield height, 0
    for level in range(height // subtree):
        for row in range(subtree):
            for index in range(1 << (subtree - row)):
                yield level * subtree + row, index


def tables(maker, tokens, height, subtree, filler):
    """The table after each unit of a draft, with two cells more than it needs. A cell keeps what was last put into it."""
    rows, own = tree(maker, tokens), list(homes(height, subtree))
    table = [filler] * (cells(height, subtree) + 2)
    for made, stack in units(height):
        placed = own + [node for node in stack if node not in own]
        for tall, index in [made] + placed[len(own):]:
            table[placed.index((tall, index))] = rows[tall][index]
        yield made, list(table)


class Draft:
    """A draft as its caller sees it: the nodes made and those still to be made."""

    def __init__(self, height):
        self.made, self.left = [], [made for made, _ in units(height)]

    def step(self, budget, lack=None):
        """A lack is the number and the cause of the first token that the source has not."""
        ready = self.left
        if lack and (0, lack[0]) in ready:
            ready = ready[:ready.index((0, lack[0]))]
        new = ready[:budget]
        if budget and self.left and not new:
            return "refused 6 %d %s draft" % lack
        self.made, self.left = self.made + new, self.left[len(new):]
        return "made %d %d" % counts(new)

    def meter(self):
        return "meter %d %d" % counts(self.made)

    def turn(self):
        return "turn refused 5 %d" % len(self.left)

    def end(self, root):
        if self.left:
            return self.turn() + ", abandoned %d %d" % counts(self.made)
        return "root %s, closed 0 %d %d 0 0" % ((root.hex(),) + counts(self.made))


def begin(height, subtree, table, tokens):
    bad = bad_shape(height, subtree)
    if not bad and table < cells(height, subtree):
        bad = (3, cells(height, subtree))
    if not bad and tokens < 1 << height:
        bad = (4, tokens)
    return "refused %d %d" % bad if bad else "made 0 0"


def whole_drafts(seed):
    """Drafts by several budgets, the nodes that they leave, and the table after each unit of one."""
    def drafted(name, height, subtree):
        return list(tables(NAMES[name], [token(seed, n) for n in range(1 << height)], height, subtree, FILLERS[name]))

    for height, subtree in ((1, 1), (4, 1), (4, 2), (6, 3)):
        for budget in (1, 3, ALL):
            for name in ("dummy", "sealed"):
                draft, table = Draft(height), drafted(name, height, subtree)[-1][1]
                steps = -(-len(draft.left) // budget)
                made = draft.step(ALL)
                rest = "kept" if table[cells(height, subtree):] == [FILLERS[name]] * 2 else "changed"
                yield "%s %d %d by %d: %d steps %s, %s, %s, rest %s" % (
                    name, height, subtree, budget, steps, made, draft.meter(), draft.end(table[0]), rest)
    for height, subtree in ((4, 1), (4, 2)):
        for name in ("dummy", "sealed"):
            table = drafted(name, height, subtree)[-1][1]
            for cell, _ in enumerate(homes(height, subtree)):
                yield "%s %d %d cell %d: %s" % (name, height, subtree, cell, table[cell].hex())
    seen = [(counts([made]), table) for made, table in drafted("dummy", 4, 1)]
    for number, (made, table) in enumerate(seen + [((0, 0), seen[-1][1])]):
        yield "step %d made %d %d:" % ((number + 1,) + made) + "".join(" " + node.hex() for node in table)


def refused_drafts():
    """Turns that come too early, and calls that are refused, of drafts of 16 tokens with subtrees of height 2."""
    size, tokens = cells(4, 2), [bytes([n]) * 32 for n in range(16)]
    roots = {name: tree(maker, tokens)[-1][0] for name, maker in NAMES.items()}
    for early in (0, 1, 10, 30):
        draft = Draft(4)
        yield "early turn: " + ", ".join([draft.step(early), draft.turn(), draft.step(ALL), draft.end(roots["dummy"])])
    for height, subtree, table, count in (
            (4, 2, size, 16), (0, 1, size, 16), (21, 1, size, 16), (4, 3, size, 16), (4, 0, size, 16), (4, 11, size, 16),
            (21, 11, size, 16), (0, 0, 0, 0), (4, 3, 0, 0), (4, 2, size - 1, 16), (4, 2, size, 15), (4, 2, size - 1, 15),
            (4, 2, 0, 0), (1, 1, 3, 2)):
        yield "begin %d %d, %d cells, %d tokens: %s" % (height, subtree, table, count, begin(height, subtree, table, count))
    draft, budgets = Draft(4), (0, ALL, 1, 0)
    yield "long table, budget 7: %s, %s" % (draft.step(7), draft.meter())
    for budget in budgets:
        yield "short table, budget %d: refused 3 %d, %s" % (budget, size, draft.meter())
    yield "long table, budget 7: %s, %s" % (draft.step(7), draft.meter())
    yield "long table: " + draft.end(None)
    for what, lack in (("first token torn", (0, "torn")), ("token torn", (5, "torn")), ("short list", (5, "beyond"))):
        draft = Draft(4)
        for budget in budgets:
            yield "%s, budget %d: %s, %s" % (what, budget, draft.step(budget, lack), draft.meter())
        yield "%s: %s" % (what, draft.end(None))
    for lack in ((5, "torn"), None):
        for name in ("dummy", "sealed"):
            draft = Draft(4)
            made = draft.step(ALL, lack)
            answer = draft.step(ALL, lack) if lack else "root %s, %s" % (roots[name].hex(), made)
            yield "root by %s: %s, %s" % (name, answer, draft.meter())



def files():
    named = list(pairs())
    out = {}
    for name, root, data in (named[0], named[3]):
        kind = {1: "sealed", 2: "dummy"}[data[1]]
        out["examples/%s.txt" % kind] = "%s\n%s\n" % (root.hex(), data.hex())
    out["examples/forged.txt"] = "%s\n%s\n" % (named[0][1].hex(), (named[0][2][:20] + b"\x00" + named[0][2][21:]).hex())
    out["examples/cut.txt"] = "%s\n%s\n" % (named[0][1].hex(), named[0][2][:40].hex())
    out["crates/checker/stdin"] = out["examples/sealed.txt"]
    out["crates/checker/stdout"] = verdict(named[0][1], named[0][2]) + "\n"
    out["crates/damage/stdin"] = "".join("%s\n%s\n" % (root.hex(), data.hex()) for _, root, data in named)
    out["crates/damage/stdout"] = "".join(
        "%s: %s\n" % (what, verdict(root, data)) for _, root, whole in named for what, data in damaged_strip(whole))
    out["examples/ticket.txt"] = TICKET.decode()
    out["crates/tickets/stdin"] = TICKET.decode()
    out["crates/tickets/stdout"] = "".join("%s: %s\n" % (what, ticket(text)) for what, text in damaged_ticket(TICKET)) + "".join(
        "size %d %d: %s\n" % (height, subtree, table_size(height, subtree))
        for height, subtree in ((1, 1), (4, 1), (4, 2), (20, 10), (11, 10), (21, 1), (0, 1), (4, 0)))
    shown = job("sealed", 8, 4)
    out["crates/listing/stdin"] = shown.decode()
    out["crates/listing/stdout"] = "".join(line + "\n" for line in listing(shown))
    drafts = list(whole_drafts(b"\x07" * 32)) + list(refused_drafts())
    out["crates/drafts/stdout"] = "".join(line + "\n" for line in drafts)
    out["tests/listing.txt"] = "".join(as_case(name, text) for name, text in listings())
    return out


def main():
    if sys.argv[1:] == ["write"]:
        for path, text in files().items():
            (TOP / path).parent.mkdir(parents=True, exist_ok=True)
            (TOP / path).write_text(text)
        return 0
    if sys.argv[1:] == ["check"]:
        stale = [path for path, text in files().items() if not (TOP / path).exists() or (TOP / path).read_text() != text]
        for path in stale:
            print("not what the model writes: " + path)
        return 1 if stale else 0
    if sys.argv[1:] == ["verdict"]:
        root, data = (bytes.fromhex(line) for line in sys.stdin.read().split("\n")[:2])
        print(verdict(root, data))
        return 0
    print(__doc__)
    return 2


if __name__ == "__main__":
    sys.exit(main())
