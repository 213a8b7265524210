#!/bin/sh
# bench/audit.sh [ENTRIES]: makes a log of so many small entries (1,500 without a word), times `scitt audit` of it beside as many bare
# signature checks, which `scitt verify` makes on a statement with 1,500 receipts, and prints both, with the time for an entry in the first
# and in the last tenth of the log and the most memory that an audit held. The bare checks stand beside `sha256sum` of as many blocks of 64
# bytes as they need compressions. Processor time, the least of three runs of each. It starts the built program itself.
#
# Compressions of a check by RFC 8554, on average, of each of its two levels: 67 chains of 16 values at 7.5 steps, the hash of their ends
# (2,166 bytes), one for the leaf and two for each of 10 levels: 502.5 + 35 + 1 + 20.
set -eu
top=$(cd "$(dirname "$0")/.." && pwd -P)
entries=${1:-1500}
folder=$(mktemp -d)
trap 'rm -rf "$folder"' EXIT
"$top/run" scitt root "$0" >/dev/null || true
python3 "$top/bench/many.py" "$entries" "$folder"
python3 - "$top/crates/scitt/out/scitt" "$folder" "$entries" <<'PYTHON'
import os, subprocess, sys
program, folder, entries = sys.argv[1], sys.argv[2], int(sys.argv[3])

def least(*words, program=program):
    """The least processor time of three runs, the most memory, and the last line."""
    times, memory = [], 0
    for _ in range(3):
        child = subprocess.Popen([program, *words], stdout=subprocess.PIPE, cwd=folder)
        said = child.stdout.read().decode().rstrip("\n").split("\n")
        child.stdout.close()
        used = os.wait4(child.pid, 0)[2]
        child.returncode = 0
        times.append(used.ru_utime + used.ru_stime)
        memory = max(memory, used.ru_maxrss)
    return min(times), memory, said

whole, memory, said = least("audit", "whole")
print(said[0])
first, _, at_first = least("audit", "first")
last, _, at_last = least("audit", "last")
print(at_first[0])
print(at_last[0])
checked, _, said = least("verify", "trust", "statement")
checks = sum(line.startswith("receipt ") and "accepted" in line for line in said)
print(said[-1], "receipts", checks)
blocks = checks * 1117
with open(os.path.join(folder, "blocks"), "wb") as f:
    f.write(bytes(64 * blocks))
hashed, _, _ = least("blocks", program="sha256sum")
print(f"{checks} checks {checked * 1e3:.0f} ms, {blocks} compressions, sha256sum {hashed * 1e3:.0f} ms, ratio {checked / hashed:.2f}")
tenth, size = entries // 10, os.path.getsize(os.path.join(folder, "whole"))
bare = checked / checks * 2 * entries
print(f"audit {whole * 1e3:.0f} ms, {2 * entries} checks {bare * 1e3:.0f} ms, ratio {whole / bare:.2f}")
print(f"an entry of the first tenth {first / tenth * 1e3:.3f} ms, of the last {(whole - last) / tenth * 1e3:.3f} ms, ratio {(whole - last) / first:.2f}")
print(f"memory {memory * 1024} bytes; the file has {size}")
PYTHON
