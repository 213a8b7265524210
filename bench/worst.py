"""Searches for the inputs of about 4 MiB that cost `scitt show` (the wide grammar) the most: worst.py [SECONDS [FOLDER [PROGRAM]]].

Each shape is made twice: as it is meant to be slow, and with the keys of each map rising, which `scitt root` reads strictly. Both are timed,
processor time, the least of three runs of each in turn. A grid of shapes is tried first and then variations of the worst that were found, for
so many seconds (600 without a word); a line for each goes to standard error. The table has the twenty that took `show` longest, and then the
ten of the greatest ratio that took more than 50 ms. Into a folder that is named the inputs of these rows are written, each as NUMBER.wide and
NUMBER.strict. It starts the built program itself (`./run scitt` builds it), or the one that is named, which takes the words `show FILE` and
`root FILE`.
"""
import os, random, subprocess, sys, tempfile, time

MOST = 4 << 20
ROUNDS = 3

def head(major, n):
    first = major << 5
    for limit, info, size in ((24, None, 0), (1 << 8, 24, 1), (1 << 16, 25, 2), (1 << 32, 26, 4)):
        if n < limit:
            return bytes([first | (n if info is None else info)]) + (b"" if info is None else n.to_bytes(size, "big"))
    return bytes([first | 27]) + n.to_bytes(8, "big")

def uint(n): return head(0, n)
def string(b): return head(2, len(b)) + b
def text(b): return head(3, len(b)) + b
def array(items): return head(4, len(items)) + b"".join(items)
def table(pairs): return head(5, len(pairs)) + b"".join(key + value for key, value in pairs)

# One small item, and how many containers it opens.
LEAVES = {
    "numbers": (b"\x01", 0),
    "numbers in two bytes": (b"\x18\x40", 0),
    "numbers in nine bytes": (b"\x1b" + b"\x40" * 8, 0),
    "empty strings": (b"\x40", 0),
    "empty texts": (b"\x60", 0),
    "texts of one byte": (b"\x61a", 0),
    "simple values": (b"\xf5", 0),
    "tagged numbers": (b"\xc1\x01", 1),
    "empty arrays": (b"\x80", 1),
    "empty maps": (b"\xa0", 1),
    "arrays of a number": (b"\x81\x01", 1),
    "maps of a number": (b"\xa1\x01\x01", 1),
}
ORDERS = ("rising", "falling", "shuffled", "inward")

def ordered(keys, order):
    """Rising keys in this order. Inward: the least, the greatest, the next one, and so on."""
    keys = list(keys)
    if order == "falling": keys.reverse()
    if order == "shuffled": random.Random(1).shuffle(keys)
    if order == "inward": keys = [keys[i // 2] if i % 2 == 0 else keys[-1 - i // 2] for i in range(len(keys))]
    return keys

def filled(leaf, room, last):
    """An array of such items up to so many bytes, in arrays of 4,096, whose last item is the number `last`."""
    count = max(1, room // len(leaf))
    if count <= 4096: return array([leaf] * (count - 1) + [uint(last)])
    blocks = [array([leaf] * 4096)] * (count // 4096)
    return array(blocks[:-1] + [array([leaf] * 4095 + [uint(last)])])

class Nest:
    """Maps of so many keys, each a map of as many keys in turn, down so many levels; the lowest keys are arrays of leaves. All keys of a map are
    alike but for one number at their end, or at their front."""
    def __init__(self, levels, width, leaf, order, place):
        self.levels, self.width, self.leaf, self.order, self.place = levels, width, leaf, order, place
    def name(self):
        return f"{self.levels} levels of {self.width} keys of {self.leaf} that differ at the {self.place}, {self.order}"
    def fits(self):
        leaf = LEAVES[self.leaf]
        return 2 <= self.width <= 4096 and self.width ** (self.levels + 1) * (len(leaf[0]) + 2) <= MOST and self.levels + 3 + leaf[1] <= 16
    def make(self, order):
        for less in range(-2, 40):
            made = self.with_room(order, max(1, MOST // self.width ** (self.levels + 1) - less))
            if len(made) <= MOST: return made
        return None
    def with_room(self, order, room):
        leaf = LEAVES[self.leaf][0]
        if self.place == "end":
            items = [filled(leaf, room, n) for n in range(self.width)]
        else:
            items = [array([uint(n)] + [leaf] * (min(4095, max(0, room // len(leaf))))) for n in range(self.width)]
        for _ in range(self.levels):
            rising = sorted(items)
            if self.place == "end":
                keys = ordered(rising, order)
                inner = b"".join(key + b"\x00" for key in keys[:-1]) + keys[-1]
                items = [head(5, self.width) + inner + uint(n) for n in range(self.width)]
            else:
                keys = ordered(rising, order)
                items = [head(5, self.width) + keys[0] + uint(n) + b"".join(key + b"\x00" for key in keys[1:]) for n in range(self.width)]
        return table([(key, b"\x00") for key in ordered(sorted(items), order)])
    def near(self, rng):
        way = rng.randrange(5)
        levels, width, leaf, order, place = self.levels, self.width, self.leaf, self.order, self.place
        if way == 0: levels = max(1, levels + rng.choice((-1, 1)))
        if way == 1: width = max(2, width + rng.choice((-8, -2, -1, 1, 2, 8)))
        if way == 2: leaf = rng.choice(list(LEAVES))
        if way == 3: order = rng.choice(ORDERS)
        if way == 4: place = rng.choice(("end", "front"))
        return Nest(levels, width, leaf, order, place)

class Flat:
    """Maps of so many keys, each an array of so many leaves, a string or a text, all alike but for one number in them; as many maps as fit."""
    def __init__(self, width, size, leaf, order, place):
        self.width, self.size, self.leaf, self.order, self.place = width, size, leaf, order, place
    def name(self):
        return f"maps of {self.width:,} keys of {self.size:,} bytes, {self.leaf}, that differ at the {self.place}, {self.order}"
    def fits(self): return 2 <= self.width <= 4096 and 1 <= self.size and self.width * (self.size + 6) <= MOST
    def key(self, n):
        front = self.size // 2 if self.place == "middle" else 0 if self.place == "front" else self.size
        back = self.size - front
        if self.leaf == "string": return string(b"a" * front + n.to_bytes(2, "big") + b"b" * back)
        if self.leaf == "text": return text(b"a" * front + b"%04d" % n + b"b" * back)
        if self.leaf == "number": return uint(n)
        leaf = LEAVES[self.leaf][0]
        if (front + back) // len(leaf) > 4094: return None
        return array([leaf] * (front // len(leaf)) + [uint(n)] + [leaf] * (back // len(leaf)))
    def make(self, order):
        keys = [self.key(n) for n in range(self.width)]
        if None in keys: return None
        one = table([(key, b"\x00") for key in ordered(sorted(keys), order)])
        maps = [one] * max(1, (MOST - 8) // (len(one) + 3))
        if len(maps) == 1: return one
        if len(maps) <= 4096: return array(maps)
        return array([array(maps[i:i + 4096]) for i in range(0, len(maps), 4096)])
    def near(self, rng):
        way = rng.randrange(5)
        width, size, leaf, order, place = self.width, self.size, self.leaf, self.order, self.place
        if way == 0: width = max(2, min(4096, int(width * rng.choice((0.5, 0.8, 1.25, 2)))))
        if way == 1: size = max(1, int(size * rng.choice((0.5, 0.8, 1.25, 2))))
        if way == 2: leaf = rng.choice(["string", "text", "number"] + list(LEAVES))
        if way == 3: order = rng.choice(ORDERS)
        if way == 4: place = rng.choice(("end", "middle", "front"))
        return Flat(width, size, leaf, order, place)

class Chain:
    """Maps of so many small keys, the last of which holds the next map; the innermost value is filled with leaves. `behind` says whether the
    next map stands as a key or as a value."""
    def __init__(self, levels, width, leaf, order, behind):
        self.levels, self.width, self.leaf, self.order, self.behind = levels, width, leaf, order, behind
    def name(self): return f"{self.levels} maps in each other as a {self.behind} behind {self.width} small keys, {self.leaf}, {self.order}"
    def fits(self): return self.levels + 3 + LEAVES[self.leaf][1] <= 16 and 1 <= self.width <= 4000
    def make(self, order):
        item = filled(LEAVES[self.leaf][0], MOST - 64 - self.levels * (4 * self.width + 8), 0)
        for _ in range(self.levels):
            pairs = [(uint(n), b"\x00") for n in ordered(range(self.width), order)]
            item = table(pairs + ([(item, b"\x00")] if self.behind == "key" else [(uint(self.width), item)]))
        return item
    def near(self, rng):
        way = rng.randrange(4)
        levels, width, leaf, order = self.levels, self.width, self.leaf, self.order
        if way == 0: levels = max(1, levels + rng.choice((-2, -1, 1)))
        if way == 1: width = max(1, int(width * rng.choice((0.5, 2))))
        if way == 2: leaf = rng.choice(list(LEAVES))
        if way == 3: order = rng.choice(ORDERS)
        return Chain(levels, width, leaf, order, self.behind)

class Many:
    """As many items of one kind as fit, in arrays of 4,096: no keys, the items' memory alone."""
    def __init__(self, leaf): self.leaf = leaf
    def name(self): return f"{self.leaf}, in arrays of 4,096"
    def fits(self): return True
    def make(self, order):
        leaf = LEAVES[self.leaf][0]
        return array([array([leaf] * 4096)] * (MOST // (4096 * len(leaf) + 3)))
    def near(self, rng): return Many(rng.choice(list(LEAVES)))

ALG, KID, CLAIMS = (b"\x01", b"\x38\x2d"), (b"\x04", string(b"key")), (b"\x0f", b"\xa2\x01\x63iss\x02\x63sub")

class Message:
    """A statement with so many labels in each map, with a payload that fills it, a small one or none; its crit may have 4,096 times the label of
    the claims, which then stand behind all other labels."""
    def __init__(self, crit, protected, unprotected, size, payload, order):
        self.crit, self.protected, self.unprotected, self.size, self.payload, self.order = crit, protected, unprotected, size, payload, order
    def name(self):
        kind = f"texts of {self.size:,} bytes" if self.size else "numbers"
        payload = {"fill": "a payload that fills it", "nil": "no payload", "small": "a small payload"}[self.payload]
        return f"message: {self.protected:,} protected and {self.unprotected:,} unprotected labels, {kind}{', crit of 4,096' if self.crit else ''}, {payload}, {self.order}"
    def fits(self): return self.protected <= 4090 and self.unprotected <= 4096 and (self.protected + self.unprotected) * (self.size + 4) <= MOST - 200
    def label(self, n):
        if self.size == 0: return uint(400 + n)
        return text(b"a" * (self.size - 5) + b"%05d" % n)
    def make(self, order):
        more = [(self.label(2 * n), b"\x00") for n in range(self.protected)]
        known = [ALG, KID] + ([(b"\x02", array([b"\x0f"] * 4096))] if self.crit else [])
        if order == "rising": pairs = sorted(known + [CLAIMS] + more)
        else: pairs = ordered(sorted(known + more), order) + [CLAIMS]
        protected = table(pairs)
        unprotected = table(ordered(sorted((self.label(2 * n + 1), b"\x00") for n in range(self.unprotected)), order))
        front = b"\xd2\x84" + string(protected) + unprotected
        if self.payload == "nil": payload = b"\xf6"
        elif self.payload == "small": payload = string(b"p")
        else: payload = string(b"p" * (MOST - len(front) - 80))
        return front + payload + string(b"s" * 64)
    def near(self, rng):
        way = rng.randrange(4)
        crit, protected, unprotected, size, payload, order = self.crit, self.protected, self.unprotected, self.size, self.payload, self.order
        if way == 0: protected = max(0, int(protected * rng.choice((0.5, 0.9, 1.1, 2))))
        if way == 1: unprotected = max(0, int(unprotected * rng.choice((0.5, 0.9, 1.1, 2))))
        if way == 2: size = rng.choice((0, 6, 60, 250, 500, 1000))
        if way == 3: order = rng.choice(ORDERS)
        return Message(crit, protected, unprotected, size, payload, order)

class Inside:
    """A shape as the value of a label of a statement, protected or not."""
    def __init__(self, shape, where): self.shape, self.where = shape, where
    def name(self): return f"message: {self.where}, {self.shape.name()}"
    def fits(self): return self.shape.fits() and not isinstance(self.shape, (Message, Inside)) and getattr(self.shape, "levels", 1) <= 11
    def make(self, order):
        item = self.shape.make(order)
        if item is None: return None
        known = [ALG, KID, CLAIMS]
        if self.where == "protected":
            inner = table(known + [(uint(500), item)])
            return b"\xd2\x84" + string(inner) + b"\xa0" + string(b"p") + string(b"s" * 64)
        return b"\xd2\x84" + string(table(known)) + table([(uint(500), item)]) + string(b"p") + string(b"s" * 64)
    def strict(self):
        # the strict reading is that of the item inside, which a string would hide
        return self.shape.make("rising") if self.where == "protected" else self.make("rising")
    def near(self, rng): return Inside(self.shape.near(rng), self.where)

def grid():
    """The shapes to begin with: those of mixed order first."""
    yield Message(True, 4089, 0, 0, "small", "falling")
    yield Message(True, 4089, 0, 0, "fill", "falling")
    for levels, width in ((5, 8), (6, 7)): yield Nest(levels, width, "numbers", "shuffled", "end")
    for leaf in ("numbers", "empty strings", "tagged numbers", "maps of a number"): yield Flat(4096, 990, leaf, "shuffled", "end")
    for width in (60, 24): yield Flat(width, 1, "number", "shuffled", "end")
    yield Message(False, 4090, 0, 1000, "small", "shuffled")
    yield Message(False, 4090, 4096, 500, "nil", "shuffled")
    yield Message(False, 0, 0, 0, "fill", "rising")
    for leaf in ("arrays of a number", "empty arrays"): yield Many(leaf)
    for leaf in ("numbers", "empty strings", "maps of a number"): yield Nest(5, 8, leaf, "falling", "front")
    yield Inside(Nest(5, 8, "numbers", "shuffled", "end"), "protected")
    yield Inside(Many("arrays of a number"), "unprotected")
    for order in ("shuffled", "falling", "inward", "rising"):
        for levels, width in ((1, 8), (3, 8), (4, 16), (3, 32), (2, 64), (1, 256), (1, 900), (9, 4), (12, 2)):
            yield Nest(levels, width, "numbers", order, "end")
        for width, size in ((8, 40), (12, 1), (256, 60), (1024, 250), (4096, 250)):
            yield Flat(width, size, "numbers", order, "end")
        for leaf in ("string", "text", "number"): yield Flat(4096, 990 if leaf != "number" else 1, leaf, order, "end")
        yield Flat(4096, 990, "string", order, "middle")
    for width in (7, 8, 17, 1000):
        for behind in ("key", "value"): yield Chain(12, width, "numbers", "rising", behind)
    for leaf in LEAVES: yield Many(leaf)
    for protected, unprotected, size in ((0, 4096, 1000), (4090, 4096, 0)): yield Message(False, protected, unprotected, size, "small", "shuffled")

def used(program, command, path):
    child = subprocess.Popen([program, command, path], stdout=subprocess.PIPE)
    said = child.stdout.read().decode().split("\n")[0][:40]
    child.stdout.close()
    _, status, spent = os.wait4(child.pid, 0)
    child.returncode = 0
    return spent.ru_utime + spent.ru_stime, said

def both(shape):
    """The slow input and the one that is read strictly."""
    order = getattr(shape, "order", None) or getattr(getattr(shape, "shape", None), "order", "rising")
    return shape.make(order), shape.strict() if hasattr(shape, "strict") else shape.make("rising")

def timed(program, shape, folder):
    wide, strict = both(shape)
    if wide is None or len(wide) > MOST: return None
    paths = [os.path.join(folder, name) for name in ("wide", "strict")]
    for path, content in zip(paths, (wide, strict)):
        with open(path, "wb") as f: f.write(content)
    times = ([], [])
    for _ in range(ROUNDS):
        for i, command in enumerate(("show", "root")):
            spent, said = used(program, command, paths[i])
            times[i].append(spent)
            if i == 0: shown = said
    return min(times[0]), min(times[1]), len(wide), shown

def main():
    top = os.path.dirname(os.path.dirname(os.path.abspath(__file__)))
    seconds = float(sys.argv[1]) if len(sys.argv) > 1 else 600
    keep = sys.argv[2] if len(sys.argv) > 2 else None
    program = sys.argv[3] if len(sys.argv) > 3 else os.path.join(top, "crates", "scitt", "out", "scitt")
    if len(sys.argv) <= 3: subprocess.run([os.path.join(top, "run"), "scitt", "root", os.devnull], stdout=subprocess.DEVNULL)
    rng, rows, ends = random.Random(1), {}, time.monotonic() + seconds
    with tempfile.TemporaryDirectory() as folder:
        def tried(shape):
            if not shape.fits() or shape.name() in rows: return
            found = timed(program, shape, folder)
            if found:
                rows[shape.name()] = (*found, shape)
                print(f"{found[0] * 1e3:.0f} {found[1] * 1e3:.0f} {shape.name()}", file=sys.stderr, flush=True)
        for shape in grid():
            if time.monotonic() < ends: tried(shape)
        while time.monotonic() < ends:
            worst = sorted(rows.values(), key=lambda row: -row[0])[:12] + sorted(rows.values(), key=lambda row: -row[0] / row[1])[:4]
            tried(rng.choice(worst)[4].near(rng))
    print(f"{len(rows)} shapes\n\n| Shape | Bytes | `show`, ms | `root`, ms | Ratio | `show` says |\n|---|---|---|---|---|---|")
    slowest = sorted(rows, key=lambda name: -rows[name][0])[:20]
    steepest = [name for name in sorted(rows, key=lambda name: -rows[name][0] / rows[name][1]) if rows[name][0] > 0.05 and name not in slowest][:10]
    for number, name in enumerate(slowest + steepest):
        shown, rooted, size, said, shape = rows[name]
        print(f"| {name} | {size:,} | {shown * 1e3:.0f} | {rooted * 1e3:.0f} | {shown / rooted:.1f} | {said} |")
        if keep:
            for end, content in zip(("wide", "strict"), both(shape)):
                with open(os.path.join(keep, f"{number}.{end}"), "wb") as f: f.write(content)

if __name__ == "__main__": main()
