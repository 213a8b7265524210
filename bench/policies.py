"""Forms of policies, trust files and parameters, and the bytes or the refusal of each, by the rules of docs/FORMS.md alone and the CBOR of forms.py.

It prints a table for tests: the lines of the form, joined by `~`, and what it is written as: bytes in hexadecimal, or the refusal.
"""
import sys
sys.dont_write_bytecode = True
from forms import *
from registrar import Tree

KEY = [bytes([n]) * 60 for n in (0, 1, 2, 3, 0xab, 5, 6)]
rows = []


def form(*lines):
    return '~'.join(lines)


def good(document, *lines):
    rows.append((form(*lines), enc(document).hex()))


def bad(refusal, *lines):
    rows.append((form(*lines), refusal))


def key(n):
    return 'key = "%s"' % KEY[n].hex()


def holder(iss, n, kid=None):
    return [iss, H(KEY[n]) if kid is None else kid, KEY[n]]


V = 'version = 1'
G = ('[[governor]]', 'iss = "gov"', key(1))
GOV = holder('gov', 1)


def policy(governors=(GOV,), issuers=(), rules=(), version=1):
    return [1, version, list(governors), list(issuers), list(rules)]


def rule(condition, cbor, effect='admit', number=1, rid=100):
    good(policy(rules=[[rid, number, cbor]]), V, *G, '[[rule]]', 'id = %d' % rid, '%s = %s' % (effect, condition))


def bad_rule(refusal, *lines):
    bad(refusal, V, *G, '[[rule]]', *lines)


# ---- the first worked document: its kid is the byte 1
good(policy([['gov', b'\1', KEY[0]]]), V, '[[governor]]', 'iss = "gov"', 'kid = "01"', key(0))
good(policy(), V, *G)
good(policy(version=4294967295), 'version = 4294967295', *G)
good(policy(), *[V] + ['governor = [{ iss = "gov", %s }]' % key(1)])
good(policy([holder('gov', 1), holder('gov', 2)], [holder('\u00e9metteur', 3), holder('\u4e2d', 4, bytes(64))]),
     V, *G, '[[governor]]', 'iss = "gov"', key(2), '[[issuer]]', 'iss = "\u00e9metteur"', key(3),
     '[[issuer]]', 'iss = "\u4e2d"', 'kid = "%s"' % (b'\0' * 64).hex(), key(4).upper().replace('KEY', 'key'))
# ---- the document of the generated log (docs/profile/generated.md)


def named(name, ots, height, lms):
    return Tree(H(b'scitt %s id' % name)[:16], H(b'scitt %s seed' % name), ots, height, lms).pub


ours = [['governor', named(b'governor', 4, 5, 5)]] + [['issuer-%d' % n, named(b'issuer-%d' % n, 3, 10, 6)] for n in range(3)]
tables = [['[[%s]]' % ('issuer' if place else 'governor'), 'iss = "%s"' % iss, 'key = "%s"' % pub.hex()] for place, (iss, pub) in enumerate(ours)]
holders = [[iss, H(pub), pub] for iss, pub in ours]
good(policy(holders[:1], holders[1:], [[100, 0, [0, [3, 'issuer-2'], [2, [7]]]], [101, 1, [0]]]), V, *sum(tables, []),
     '[[rule]]', 'id = 100', 'deny = { all = [{ issuer = "issuer-2" }, { not = { first_of_subject = true } }] }', '[[rule]]', 'id = 101', 'admit = { all = [] }')
# ---- each condition
rule('{ all = [] }', [0])
rule('{ any = [] }', [1], 'deny', 0)
rule('{ all = [{ issuer = "a" }, { subject_prefix = "pkg:" }] }', [0, [3, 'a'], [4, 'pkg:']])
rule('{ any = [{ all = [] }, { any = [] }] }', [1, [0], [1]])
rule('{ not = { issuer = "a" } }', [2, [3, 'a']])
rule('{ issuer = "" }', [3, ''])
rule('{ issuer = "\u00e9\u4e2d\U0001f511" }', [3, '\u00e9\u4e2d\U0001f511'])
rule('{ subject_prefix = "p" }', [4, 'p'])
rule('{ content_type = "text/plain" }', [5, 'text/plain'])
rule('{ payload_at_most = 0 }', [6, 0])
rule('{ payload_at_most = 9223372036854775807 }', [6, 2 ** 63 - 1])
rule('{ first_of_subject = true }', [7])
rule('{ issuer_count_below = 300 }', [8, 300])
rule('{ prior_issuer = "lab" }', [9, 'lab'])
rule('{ all = [] }', [0], rid=65535)
rule('{ not = ' * 7 + '{ any = [] }' + ' }' * 7, eval('[2, ' * 7 + '[1]' + ']' * 7))
rule('{ all = [{ issuer = "a" }, { not = { first_of_subject = true } }] }', [0, [3, 'a'], [2, [7]]], 'deny', 0)
# ---- refusals
bad('form toml', 'version = ')
bad('form toml', V, V)
bad('keys unknown', V, *G, '[other]')
bad('version missing', *G)
bad('version kind', 'version = "1"', *G)
bad('version kind', 'version = 1.0', *G)
bad('version negative', 'version = -1', *G)
bad('version limits', 'version = 0', *G)
bad('version limits', 'version = 4294967296', *G)
bad('governor limits', V)
bad('governor kind', V, 'governor = "gov"')
bad('governor kind', V, '[governor]', 'iss = "gov"', key(1))
bad('governor 0 governor kind', V, 'governor = ["gov"]')
bad('governor 0 keys unknown', V, *G, 'name = "a"')
bad('governor 0 iss missing', V, '[[governor]]', key(1))
bad('governor 0 iss kind', V, '[[governor]]', 'iss = 1', key(1))
bad('governor 0 key missing', V, '[[governor]]', 'iss = "gov"')
bad('governor 0 key kind', V, '[[governor]]', 'iss = "gov"', 'key = 1')
bad('governor 0 key hex', V, '[[governor]]', 'iss = "gov"', 'key = "%s"' % KEY[1].hex()[2:])
bad('governor 0 key hex', V, '[[governor]]', 'iss = "gov"', 'key = "%sg"' % KEY[1].hex()[1:])
bad('governor 1 kid hex', V, *G, '[[governor]]', 'iss = "gov"', 'kid = "0"', key(1))
bad('governor 0 kid kind', V, *G, 'kid = 1')
bad('governor limits', V, *G, 'kid = ""')
bad('governor limits', V, *G, *G)
bad('governor limits', V, '[[governor]]', 'iss = ""', key(1))
bad('issuer 0 iss missing', V, *G, '[[issuer]]', key(1))
bad('issuer limits', V, *G, '[[issuer]]', 'iss = ""', key(1))
bad('rule kind', V, 'rule = 1', *G)
bad_rule('rule 0 keys unknown', 'id = 100', 'admit = { all = [] }', 'other = 1')
bad_rule('rule 0 id missing', 'admit = { all = [] }')
bad_rule('rule 0 id kind', 'id = "100"', 'admit = { all = [] }')
bad_rule('rule 0 id negative', 'id = -100', 'admit = { all = [] }')
bad_rule('rule limits', 'id = 99', 'admit = { all = [] }')
bad_rule('rule limits', 'id = 65536', 'admit = { all = [] }')
bad_rule('rule limits', 'id = 100', 'admit = { all = [] }', '[[rule]]', 'id = 100', 'deny = { all = [] }')
bad_rule('rule 0 effect missing', 'id = 100')
bad_rule('rule 0 effect both', 'id = 100', 'admit = { all = [] }', 'deny = { all = [] }')
bad_rule('rule 0 condition kind', 'id = 100', 'admit = true')
bad_rule('rule 0 condition kind', 'id = 100', 'admit = {}')
bad_rule('rule 0 condition kind', 'id = 100', 'admit = { all = [], any = [] }')
bad_rule('rule 0 condition unknown', 'id = 100', 'admit = { subject = "a" }')
bad_rule('rule 0 condition unknown', 'id = 100', 'admit = { Issuer = "a" }')
bad_rule('rule 0 all kind', 'id = 100', 'admit = { all = { issuer = "a" } }')
bad_rule('rule 0 any kind', 'id = 100', 'admit = { any = "a" }')
bad_rule('rule 0 condition kind', 'id = 100', 'admit = { not = [] }')
bad_rule('rule 0 issuer kind', 'id = 100', 'admit = { issuer = ["a"] }')
bad_rule('rule 0 subject_prefix kind', 'id = 100', 'admit = { subject_prefix = 1 }')
bad_rule('rule 0 content_type kind', 'id = 100', 'admit = { content_type = true }')
bad_rule('rule 0 payload_at_most kind', 'id = 100', 'admit = { payload_at_most = "1" }')
bad_rule('rule 0 payload_at_most negative', 'id = 100', 'admit = { payload_at_most = -1 }')
bad_rule('rule 0 first_of_subject kind', 'id = 100', 'admit = { first_of_subject = false }')
bad_rule('rule 0 first_of_subject kind', 'id = 100', 'admit = { first_of_subject = 1 }')
bad_rule('rule 0 issuer_count_below negative', 'id = 100', 'admit = { issuer_count_below = -1 }')
bad_rule('rule 0 prior_issuer kind', 'id = 100', 'admit = { prior_issuer = 1 }')
bad_rule('rule 0 condition deep', 'id = 100', 'admit = ' + '{ not = ' * 8 + '{ any = [] }' + ' }' * 8)
bad_rule('rule 1 issuer kind', 'id = 100', 'admit = { all = [] }', '[[rule]]', 'id = 101', 'deny = { any = [{ issuer = 1 }] }')
policies, rows = rows, []

# ---- trust files
S = ('[[service]]', 'name = "log"', key(5))
LOG = ['log', KEY[5]]
good([1, [LOG], []], *S)
good([1, [LOG, ['\u00e9', KEY[6]]], [holder('a', 1), holder('', 2, b'')]], *S, '[[service]]', 'name = "\u00e9"', key(6),
     '[[issuer]]', 'iss = "a"', key(1), '[[issuer]]', 'iss = ""', 'kid = ""', key(2))
good([1, [LOG], []], 'issuer = []', 'service = [{ name = "log", %s }]' % key(5).upper().replace('KEY', 'key'))
good([1, [LOG, LOG], [GOV, GOV]], *S, *S, '[[issuer]]', 'iss = "gov"', key(1), '[[issuer]]', 'iss = "gov"', key(1))
good([1, [['\u00e9\u4e2d\U0001f511\n"\0', KEY[5]]], [holder('\u0414', 1, b'\xc3')]],
     '[[service]]', r'name = "\u00e9\u4e2d\U0001f511\n\"\u0000"', key(5), '[[issuer]]', 'iss = "\u0414"', 'kid = "c3"', key(1))
I = ('[[issuer]]', 'iss = "a"', key(1))
bad('keys unknown', V, *S)
bad('form toml', '[[service')
bad('form toml', *S, *S[1:])
bad('service limits', '')
bad('service limits', 'service = []', *I)
bad('service kind', 'service = "log"')
bad('service kind', '[service]', 'name = "log"', key(5))
bad('service 0 service kind', 'service = [1]')
bad('service 0 keys unknown', *S, 'kid = "01"')
bad('service 0 name missing', '[[service]]', key(5))
bad('service 0 name kind', '[[service]]', 'name = 1', key(5))
bad('service 0 key missing', '[[service]]', 'name = "log"')
bad('service 0 key kind', '[[service]]', 'name = "log"', 'key = [0]')
bad('service 0 key hex', '[[service]]', 'name = "log"', 'key = "%s"' % KEY[5].hex()[1:])
bad('service 0 key hex', '[[service]]', 'name = "log"', 'key = "%s00"' % KEY[5].hex())
bad('service 0 key hex', '[[service]]', 'name = "log"', 'key = "\u00e9%s"' % KEY[5].hex()[2:])
bad('service 1 key hex', *S, '[[service]]', 'name = "log"', 'key = ""')
bad('issuer kind', *S, '[issuer]')
bad('issuer kind', 'issuer = 2026-12-02', *S)
bad('issuer 0 issuer kind', 'issuer = [[]]', *S)
bad('issuer 0 keys unknown', *S, *I, 'name = "a"')
bad('issuer 0 iss missing', *S, '[[issuer]]', key(1))
bad('issuer 0 iss kind', *S, '[[issuer]]', 'iss = ["a"]', key(1))
bad('issuer 0 key missing', *S, '[[issuer]]', 'iss = "a"')
bad('issuer 0 key kind', *S, '[[issuer]]', 'iss = "a"', 'key = 1')
bad('issuer 0 key hex', *S, '[[issuer]]', 'iss = "a"', 'key = "%s"' % KEY[1].hex()[2:])
bad('issuer 1 kid kind', *S, *I, *I, 'kid = 1')
bad('issuer 0 kid hex', *S, *I, 'kid = "0g"')
bad('service 0 name missing', '[[service]]', key(5), '[[issuer]]')

trusts, rows = rows, []

# ---- parameters
N = ('name = "log"', 'levels = "h5w8,h10w4"', 'max_entries = 65536', 'block = 64')
T = ('[governor]', 'iss = "gov"', key(1))


def parts(*lines):
    return [line for line in N if line.split()[0] not in [other.split()[0] for other in lines]] + list(lines)


def params(name='log', governor=GOV, levels=((5, 4), (6, 3)), most=65536, block=64):
    return [1, name, governor, [list(level) for level in levels], most, block]


good(params(), *N, *T)
good(params('g\u00e9n\u00e9rique', holder('\u4e2d', 1, b'\1'), most=1, block=1), *parts('name = "g\u00e9n\u00e9rique"', 'max_entries = 1', 'block = 1'),
     '[governor]', 'iss = "\u4e2d"', 'kid = "01"', key(1))
good(params(), 'governor = { iss = "gov", %s }' % key(1).upper().replace('KEY', 'key'), *N)
# ---- the limits of a log's header, each at its number and one past it
good(params('\u00e9' * 64), *parts('name = "%s"' % ('\u00e9' * 64)), *T)
bad('name limits', *parts('name = "%sa"' % ('\u00e9' * 64)), *T)
bad('name limits', *parts('name = ""'), *T)
good(params(governor=holder('\u4e2d' * 341 + 'a', 1)), *N, '[governor]', 'iss = "%sa"' % ('\u4e2d' * 341), key(1))
bad('governor limits', *N, '[governor]', 'iss = "%sab"' % ('\u4e2d' * 341), key(1))
bad('governor limits', *N, '[governor]', 'iss = ""', key(1))
good(params(governor=holder('gov', 1, bytes(64))), *N, *T, 'kid = "%s"' % bytes(64).hex())
bad('governor limits', *N, *T, 'kid = "%s"' % bytes(65).hex())
bad('governor limits', *N, *T, 'kid = ""')
bad('max_entries limits', *parts('max_entries = 65537'), *T)
bad('max_entries limits', *parts('max_entries = 0'), *T)
bad('max_entries limits', *parts('max_entries = 4294967296'), *T)
bad('block limits', *parts('block = 65'), *T)
bad('block limits', *parts('block = 0'), *T)
bad('block limits', *parts('block = 9223372036854775807'), *T)
bad('name limits', *parts('name = ""', 'max_entries = 0', 'block = 0'), '[governor]', 'iss = ""', key(1))
for height, code in ((5, 5), (10, 6)):
    for width, ots in ((1, 1), (2, 2), (4, 3), (8, 4)):
        good(params(levels=((code, ots),)), *parts('levels = "h%dw%d"' % (height, width)), *T)
good(params(levels=((5, 4), (6, 1), (5, 2))), *parts('levels = "h5w8,h10w1,h5w2"'), *T)
bad('levels named', *parts('levels = "h5w8,h5w8,h5w8,h5w8"'), *T)
bad('levels named', *parts('levels = "h15w8"'), *T)
bad('levels named', *parts('levels = ""'), *T)
bad('levels kind', *parts('levels = ["h5w8"]'), *T)
bad('levels missing', N[0], N[2], N[3], *T)
bad('name missing', N[1], N[2], N[3], *T)
bad('name kind', *parts('name = 1'), *T)
bad('governor missing', *N)
bad('governor 0 governor kind', *N, '[[governor]]', 'iss = "gov"', key(1))
bad('governor 0 governor kind', *N, 'governor = "gov"')
bad('governor 0 keys unknown', *N, *T, 'name = "gov"')
bad('governor 0 iss missing', *N, '[governor]', key(1))
bad('governor 0 iss kind', *N, '[governor]', 'iss = 1', key(1))
bad('governor 0 key missing', *N, '[governor]', 'iss = "gov"')
bad('governor 0 key kind', *N, '[governor]', 'iss = "gov"', 'key = true')
bad('governor 0 key hex', *N, '[governor]', 'iss = "gov"', 'key = "%s"' % KEY[1].hex()[2:])
bad('governor 0 kid kind', *N, *T, 'kid = 0')
bad('governor 0 kid hex', *N, *T, 'kid = "000"')
bad('max_entries missing', N[0], N[1], N[3], *T)
bad('max_entries kind', *parts('max_entries = 6.5e4'), *T)
bad('max_entries negative', *parts('max_entries = -1'), *T)
bad('block missing', N[0], N[1], N[2], *T)
bad('block kind', *parts('block = "64"'), *T)
bad('block negative', *parts('block = -9223372036854775808'), *T)
bad('form toml', *parts('block = 9223372036854775808'), *T)
bad('levels named', *parts('levels = "h5w8, h5w8"'), *T)
bad('levels named', *parts('levels = "H5W8"'), *T)
bad('levels named', *parts('levels = "h5w8\u00e9"'), *T)
bad('keys unknown', *N, 'version = 1', *T)
bad('form toml', 'name')

if __name__ == '__main__':
    print('// Forms, and the bytes or the refusal of each, by bench/policies.py, a program of its own in Python with its own CBOR. `~` stands for the end\n// of a line.\n')
    # in parts, since one function reads no large table
    parts = [('%s_%d' % (name, n // 20 + 1), table[n:n + 20]) for name, table in (('POLICIES', policies), ('TRUSTS', trusts), ('PARAMS', rows))
             for n in range(0, len(table), 20)]
    for name, table in parts:
        print('pub const %s: &[(&str, &str)] = &[' % name)
        for text, what in table:
            print('    (\n        "%s",\n        "%s",\n    ),' % (text.replace('\\', '\\\\').replace('"', '\\"'), what))
        print('];\n' if name != parts[-1][0] else '];')
