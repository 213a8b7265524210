#!/bin/sh
# bench/hostile.sh: makes inputs of about 4 MiB that are meant to be slow, times `scitt show` (the wide grammar) on each beside
# `scitt root` (the strict one) on the same items with rising keys, processor time, the least of three runs of each, and prints a table.
# It starts the built program itself. Words name the shapes to try; without words all are tried.
set -eu
top=$(cd "$(dirname "$0")/.." && pwd -P)
folder=$(mktemp -d)
trap 'rm -rf "$folder"' EXIT
"$top/run" scitt root "$0" >/dev/null || true
python3 - "$top/crates/scitt/out/scitt" "$folder" "$@" <<'PYTHON'
import os, random, subprocess, sys

program, folder, only = sys.argv[1], sys.argv[2], sys.argv[3:]
random.seed(1)

def head(major, n):
    first = major << 5
    for limit, info, size in ((24, None, 0), (1 << 8, 24, 1), (1 << 16, 25, 2), (1 << 32, 26, 4)):
        if n < limit:
            return bytes([first | (n if info is None else info)]) + (b"" if info is None else n.to_bytes(size, "big"))
    return bytes([first | 27]) + n.to_bytes(8, "big")

def uint(n): return head(0, n)
def string(b): return head(2, len(b)) + b
def text(b): return head(3, len(b)) + b
def array(items): return head(4, len(items)) + b"".join(items)
def table(keys, value=b"\x00"): return head(5, len(keys)) + b"".join(key + value for key in keys)
def tagged(protected, unprotected, payload): return b"\xd2\x84" + string(protected) + unprotected + string(payload) + string(b"s" * 64)

def orders(keys):
    keys = sorted(keys)
    shuffled = keys[:]
    random.shuffle(shuffled)
    return {"rising": keys, "falling": keys[::-1], "shuffled": shuffled}

def of_maps(keys, count, order):
    maps, sorted_maps = [], []
    for _ in range(count):
        maps.append(table(orders(keys)[order]))
        sorted_maps.append(table(sorted(keys)))
    return blocks(maps), blocks(sorted_maps)

def blocks(items):
    if len(items) <= 4096: return array(items)
    return array([array(items[i:i + 4096]) for i in range(0, len(items), 4096)])

def numbers(count, last):
    """An array that has so many small numbers, in arrays of 4,096, the last of them this one."""
    if count <= 4096: return array([b"\x01"] * (count - 1) + [uint(last)])
    full = array([b"\x01"] * 4096)
    return array([full] * (count // 4096 - 1) + [array([b"\x01"] * 4095 + [uint(last)])])

def nested(levels, small, at, inner):
    """A chain of maps, each the key of the one before it, among so many small keys."""
    item = inner
    for _ in range(levels):
        keys = [uint(n) for n in range(small)]
        keys.insert(0 if at == "first" else small, item)
        item = table(keys)
    return item

def doubled(levels, leaf):
    """Each level is a map of two keys that differ in their last byte."""
    a, b = leaf[:-1] + b"\x00", leaf[:-1] + b"\x01"
    for _ in range(levels):
        a, b = table([a, b], b"\x02"), table([a, b], b"\x03")
    return table([a, b])

def many(levels, width, leaf_count):
    """Each level is a map of so many keys that differ in their last byte."""
    items = [array([b"\x01"] * (leaf_count - 1) + [uint(last)]) for last in range(width)]
    for level in range(levels):
        items = [head(5, width) + b"".join(item + b"\x00" for item in items[:-1]) + items[-1] + uint(last) for last in range(width)]
    return head(5, width) + b"".join(item + b"\x00" for item in items)

def protected(more=()):
    """A protected map that a statement may have, with these labels more."""
    entries = [(b"\x01", b"\x38\x2d"), (b"\x04", string(b"key")), (b"\x0f", b"\xa2\x01\x63iss\x02\x63sub")] + [(key, b"\x00") for key in more]
    return head(5, len(entries)) + b"".join(key + value for key, value in entries)

def labels(count, size, end): return [text(b"a" * (size - 5) + b"%05d" % (2 * i + end)) for i in range(count)]

def make():
    for order in ("rising", "falling", "shuffled"):
        yield f"260 maps of 4,096 small numbers, {order}", lambda o=order: of_maps([uint(n) for n in range(4096)], 260, o)
        yield f"4,096 strings of 1,000 bytes, one beginning, {order}", lambda o=order: (table(orders([string(b"a" * 996 + b"%04d" % i) for i in range(4096)])[o]), table(orders([string(b"a" * 996 + b"%04d" % i) for i in range(4096)])["rising"]))
        yield f"4,096 strings of 1,000 bytes, other in the middle, {order}", lambda o=order: (table(orders([string(b"a" * 500 + b"%04d" % i + b"b" * 496) for i in range(4096)])[o]), table(orders([string(b"a" * 500 + b"%04d" % i + b"b" * 496) for i in range(4096)])["rising"]))
        yield f"4,096 arrays of 999 numbers, one beginning, {order}", lambda o=order: (table(orders([array([b"\x01"] * 998 + [uint(i)]) for i in range(4096)])[o]), table(orders([array([b"\x01"] * 998 + [uint(i)]) for i in range(4096)])["rising"]))
        yield f"4,096 arrays of 499 numbers in two bytes, one beginning, {order}", lambda o=order: (table(orders([array([b"\x18\x40"] * 498 + [uint(i)]) for i in range(4096)])[o]), table(orders([array([b"\x18\x40"] * 498 + [uint(i)]) for i in range(4096)])["rising"]))
        yield f"4,096 arrays of 999 strings of no bytes, one beginning, {order}", lambda o=order: (table(orders([array([b"\x40"] * 998 + [uint(i)]) for i in range(4096)])[o]), table(orders([array([b"\x40"] * 998 + [uint(i)]) for i in range(4096)])["rising"]))
        yield f"4,096 arrays of 499 tagged numbers, one beginning, {order}", lambda o=order: (table(orders([array([b"\xc1\x01"] * 498 + [uint(i)]) for i in range(4096)])[o]), table(orders([array([b"\xc1\x01"] * 498 + [uint(i)]) for i in range(4096)])["rising"]))
        for width in (2, 4, 8, 9, 12, 16, 24, 32, 60):
            count = 4_190_000 // (2 * width + 2)
            short = [bytes([first + n]) for first, many in ((0x00, 24), (0x20, 24), (0xe0, 20)) for n in range(many)]
            yield f"{count:,} maps of {width} keys of one byte, {order}", lambda k=short[:width], c=count, o=order: of_maps(k, c, o)
        for width in (8, 16, 24):
            size = 4_190_000 // width
            yield f"{width} strings of {size:,} bytes, one beginning, {order}", lambda w=width, s=size, o=order: (table(orders([string(b"a" * (s - 1) + bytes([i])) for i in range(w)])[o]), table(orders([string(b"a" * (s - 1) + bytes([i])) for i in range(w)])["rising"]))
            yield f"{width} arrays of {size // 4096} times 4,096 numbers, one beginning, {order}", lambda w=width, s=size, o=order: (table(orders([numbers(s // 4096 * 4096, i) for i in range(w)])[o]), table(orders([numbers(s // 4096 * 4096, i) for i in range(w)])["rising"]))
    for small in (7, 8, 17):
        for at in ("last", "first"):
            deep = lambda s=small, a=at: nested(13, s, a, numbers(4_180_000 // 4096 * 4096, 0))
            rising = lambda s=small: nested(13, s, "last", numbers(4_180_000 // 4096 * 4096, 0))
            yield f"13 maps in each other behind {small} small keys, numbers, {at}", lambda d=deep, r=rising: (d(), r())
    for levels in (4, 8, 12, 13):
        yield f"{levels} levels of two keys that differ in their last byte, numbers", lambda l=levels: (doubled(l, array([b"\x01"] * max(1, min(4096, 4_100_000 // (2 << l) - 4)))),) * 2
    for levels, width in ((5, 8), (4, 16), (3, 24), (3, 32), (2, 64), (1, 256)):
        leaf = max(1, min(4096, 4_100_000 // width ** (levels + 1) - 3))
        yield f"{levels} levels of {width} keys that differ in their last byte, numbers", lambda l=levels, w=width, n=leaf: (many(l, w, n),) * 2
    yield "1,000 arrays of 4,096 numbers", lambda: (array([array([b"\x01"] * 4096)] * 1000),) * 2
    yield "4,190,000 empty arrays", lambda: (blocks([b"\x80"] * 4_190_000),) * 2
    yield "arrays of one number", lambda: (blocks([b"\x81\x01"] * 2_095_000),) * 2
    yield "tagged numbers", lambda: (blocks([b"\xc1\x01"] * 2_095_000),) * 2
    yield "texts of one byte", lambda: (blocks([b"\x61a"] * 2_095_000),) * 2
    yield "message: a payload", lambda: (tagged(protected(), b"\xa0", b"p" * 4_190_000),) * 2
    yield "message: 4,000 protected labels of 1,000 bytes", lambda: (tagged(protected(labels(4000, 1000, 0)), b"\xa0", b"p"),) * 2
    yield "message: 4,000 unprotected labels of 1,000 bytes", lambda: (tagged(protected(), table(labels(4000, 1000, 1)), b"p"),) * 2
    yield "message: 4,000 labels of 500 bytes in each map", lambda: (tagged(protected(labels(4000, 500, 0)), table(labels(4000, 500, 1)), b"p"),) * 2
    yield "message: 4,000 numbers in each map", lambda: (tagged(protected([uint(400 + 2 * i) for i in range(4000)]), table([uint(401 + 2 * i) for i in range(4000)]), b"p"),) * 2
    yield "message: 4,096 receipts of 1,000 bytes", lambda: (tagged(protected(), table([uint(394)], array([string(b"r" * 1000)] * 4096)), b"p"),) * 2
    yield "message: a value of 4 million numbers unprotected", lambda: (tagged(protected(), table([uint(500)], numbers(4_180_000 // 4096 * 4096, 0)), b"p"),) * 2
    inner = b"\xa4" + protected()[1:] + uint(500) + numbers(4_180_000 // 4096 * 4096, 0)
    yield "message: a value of 4 million numbers protected", lambda: (tagged(inner, b"\xa0", b"p"), inner)

def least(command, path):
    times = []
    for _ in range(3):
        child = subprocess.Popen([program, command, path], stdout=subprocess.PIPE)
        said = child.stdout.read().decode().split("\n")[0][:40]
        child.stdout.close()
        used = os.wait4(child.pid, 0)[2]
        child.returncode = 0
        times.append(used.ru_utime + used.ru_stime)
    return min(times), said

print("| Shape | Bytes | `show`, ms | `root`, ms | Ratio | `show` says |")
print("|---|---|---|---|---|---|")
for name, makes in make():
    if only and not any(word in name for word in only): continue
    a, b = makes()
    first, second = os.path.join(folder, "wide"), os.path.join(folder, "strict")
    with open(first, "wb") as f: f.write(a)
    with open(second, "wb") as f: f.write(b)
    shown, said = least("show", first)
    rooted, _ = least("root", second)
    print(f"| {name} | {len(a):,} | {shown * 1e3:.0f} | {rooted * 1e3:.0f} | {shown / rooted:.1f} | {said} |", flush=True)
PYTHON
