"""The log of stated statements that `generate` makes, by the rules of docs/profile/generated.md alone: used for the values of check_generator.

It prints for each number given how many statements are admitted and denied, how many entries the log has, and their root. It has its own LMS,
CBOR and Merkle tree (registrar.py). Making the keys takes some seconds.
"""
import sys
sys.dont_write_bytecode = True
from registrar import Tree, H, enc, mth, st, u32

PT = 'application/vnd.scitt-policy+cbor'
T0 = 1700000000


def text(x):
    return H(x.encode())


def key(name, ots, height, lms):
    return Tree(text('scitt %s id' % name)[:16], text('scitt %s seed' % name), ots, height, lms)


def holder(name, tree):
    return [name, H(tree.pub), tree.pub]


def made(counts):
    governor = key('governor', 4, 5, 5)
    issuers = [key('issuer-%d' % n, 3, 10, 6) for n in range(3)]
    names = ['issuer-%d' % n for n in range(3)]
    policy = enc([1, 1, [holder('governor', governor)], [holder(n, k) for n, k in zip(names, issuers)],
                  [[100, 0, [0, [3, 'issuer-2'], [2, [7]]]], [101, 1, [0]]]])
    genesis = st(governor, 0, 'governor', 'policy', PT, H(governor.pub), policy)
    entries = [enc([1, T0, 1, genesis])]
    seen = {'policy'}
    admitted = denied = 0
    for j in range(max(counts)):
        if j in counts:
            show(j, admitted, denied, entries)
        n, subject = j % 3, 'pkg-%d' % (j % 7)
        s = st(issuers[n], j // 3, names[n], subject, 'application/octet-stream', H(issuers[n].pub), H(u32(j)))
        if n == 2 and subject in seen:
            denied += 1
        else:
            admitted += 1
            entries.append(enc([1, T0 + 1 + j, 101, s]))
            seen.add(subject)
    show(max(counts), admitted, denied, entries)


def show(count, admitted, denied, entries):
    print('statements %d\nadmitted %d\ndenied %d\nentries %d\nroot %s\naudit clean' % (count, admitted, denied, len(entries), mth(entries).hex()))


made([int(word) for word in sys.argv[1:]] or [10, 200])
