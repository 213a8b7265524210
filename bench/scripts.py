"""Scripts of replays and what is heard of them, made by the rules of docs/profile alone: used for the values of check_script and of
check_first_path, and for the rows of the built program.

It prints the SHA-256 of a script of a log's life and of what is heard of it, and then a table for tests: the bytes of scripts in
hexadecimal, and what comes of each. With the word `tool` it prints what the tool is to say of scripts: status and text.
"""
import sys
sys.dont_write_bytecode = True
from registrar import Tree, Log, H, enc, st
from sessions import answer, problem

GOV = Tree(b'\x12' * 16, b'\x11' * 32, 1)
ISS = Tree(b'\x22' * 16, b'\x21' * 32, 1)
SVC = Tree(b'\x09' * 16, b'\x07' * 32, 1)
G = ['gov', b'\x01', GOV.pub]
A = ['acme', b'\x02', ISS.pub]
T = 1700000000


def script(form=1, seed=b'\x07' * 32, id=b'\x09' * 16, name='log', holder=G, levels=[[5, 1]], most=100, block=4, moments=[T, T + 1], session=b''):
    return [form, seed, id, name, holder, levels, most, block, moments, session]


def get(target):
    return b'GET %s HTTP/1.1\r\nHost: log\r\n\r\n' % target.encode()


def post(body):
    return b'POST /entries HTTP/1.1\r\nContent-Type: application/cose\r\nContent-Length: %d\r\n\r\n' % len(body) + body


# a log's life with two moments: the third statement finds none
policy = enc([1, 1, [G], [A], [[100, 1, [0]]]])
genesis = st(GOV, 0, 'gov', 'policy', 'application/vnd.scitt-policy+cbor', b'\1', policy)
first = st(ISS, 0, 'acme', 'pkg-0', 'text/plain', b'\2', b'\0')
second = st(ISS, 1, 'acme', 'pkg-0', 'text/plain', b'\2', b'\1')
sent = post(genesis) + get('/entries/0') + post(first) + get('/consistency/1') + post(second) + get('/entries/1/statement') + get('/policy')
log = Log(SVC, 'log', G, 100, 4)
log.add(T, 1, genesis)
heard = answer(201, 'cose', log.receipt(0), 1, location=0) + answer(200, 'cose', log.receipt(0), 1)
log.add(T + 1, 100, first)
heard += answer(201, 'cose', log.receipt(1), 2, location=1) + answer(200, 'cose', log.cons(1), 2)
heard += problem('ClockFault', 2) + answer(200, 'cose', first, 2) + answer(200, 'cbor', policy, 2)
whole = enc(script(session=sent))

rows = []


def row(value, what):
    rows.append((value if isinstance(value, bytes) else enc(value), what))


def bad(**parts):
    row(script(**parts), 'no script')


def broken(**parts):
    row(script(**parts), 'broken limit')


def plays(end, text, **parts):
    row(script(**parts), '%s %s' % (end, H(text).hex()))


# what is heard of a few bytes
none = problem('NoEntry', 0, 0, 7)
boot = answer(200, 'cbor', enc([1, 0, [G], [], []]), 0)
plays('Ended', b'')
plays('Ended', b'', moments=[], name='x' * 128, holder=['g' * 1024, b'\1' * 64, GOV.pub], most=65536, block=64)
plays('Ended', none, most=1, block=1, moments=[2 ** 64 - 1, 0], session=get('/entries/7'))
plays('CutShort', boot, session=get('/policy') + b'GET /pol')
plays('HeadRefused', none + problem('BadHead', 0, close=True), session=get('/entries/7') + b'GET /policy\r\n\r\n' + get('/policy'))
# no script
row(1, 'no script')
row([], 'no script')
row(script()[:9], 'no script')
row(script() + [0], 'no script')
row({1: script()}, 'no script')
bad(form=0)
bad(form=2)
bad(form=b'\1')
bad(seed=b'\7' * 31)
bad(seed=b'\7' * 33)
bad(seed='7' * 32)
bad(id=b'\x09' * 15)
bad(id=b'\x09' * 17)
bad(id='9' * 16)
bad(name=b'log')
bad(holder=G[:2])
bad(holder=G + [0])
bad(holder=[b'gov', b'\1', GOV.pub])
bad(holder=['gov', '1', GOV.pub])
bad(holder=['gov', b'\1', GOV.pub[:59]])
bad(holder=['gov', b'\1', GOV.pub + b'\0'])
bad(levels=[])
bad(levels=[[5, 1]] * 4)
bad(levels=[[5]])
bad(levels=[[7, 1]])
bad(levels=[[5, 5]])
bad(most=2 ** 32)
bad(most=-1)
bad(block=2 ** 32)
bad(block='4')
bad(moments=T)
bad(moments=[T, -1])
bad(moments=[T, [T]])
bad(session='GET')
bad(session=[])
row(enc(script())[:-1], 'no script')
row(enc(script()) + b'\0', 'no script')
row(b'', 'no script')
row(b'\x8a\x18\1' + enc(script())[2:], 'no script')
row(b'\x9f' + enc(script())[1:] + b'\xff', 'no script')
# limits of a log
broken(name='')
broken(name='x' * 129)
broken(holder=['', b'\1', GOV.pub])
broken(holder=['g' * 1025, b'\1', GOV.pub])
broken(holder=['gov', b'', GOV.pub])
broken(holder=['gov', b'\1' * 65, GOV.pub])
broken(most=0)
broken(most=65537)
broken(block=0)
broken(block=65)


def table():
    print('// life: script %d %s' % (len(whole), H(whole).hex()))
    print('// life: heard %d %s' % (len(heard), H(heard).hex()))
    print('// Scripts in hexadecimal and what comes of each, by bench/scripts.py: how the session ends and the SHA-256 of what is heard, or why there is\n// none.\n')
    print('pub const SCRIPTS: &[&str] = &[')
    for bytes_, what in rows:
        print('    "%s|%s",' % (bytes_.hex(), what))
    print('];')


def octal(data):
    return ''.join('\\%03o' % b for b in data)


def tool():
    refused = post(b'\1')
    told = get('/policy') + refused + get('/entries/7')
    text = boot + problem('BadStatement', 0, 0, 3, 0) + none
    ended = [(script(), b''), (script(session=told), text)]
    cut = [(script(session=told + b'GET /pol'), text), (script(session=told + b'GET /policy\r\n\r\n' + told), text + problem('BadHead', 0, close=True))]
    none_at_all = [enc(script()[:9]), enc(script()) + b'\0', enc(script(block=65)), b'']
    print('// By bench/scripts.py, a program of its own in Python with its own CBOR and LMS.')
    for name, pairs in [('ENDED', ended), ('CUT', cut)]:
        print('pub const %s: &[(&str, &str)] = &[' % name)
        for value, said in pairs:
            print('    ("%s", "%s"),' % (enc(value).hex(), said.hex()))
        print('];')
    print('pub const NO_SCRIPTS: &[&str] = &[')
    for bytes_ in none_at_all:
        print('    "%s",' % bytes_.hex())
    print('];')
    one = get('/entries/7')
    many = enc(script(session=one * 1001))
    print('// A thousand answers and one request more: the script in front of the session, the length of all and its SHA-256.')
    print('pub const FRONT: &str = "%s";' % many[:-len(one) * 1001].hex())
    print('// script %d %s' % (len(many), H(many).hex()))
    print('// heard %d %s' % (len(none * 999) + len(problem('NoEntry', 0, 0, 7, close=True)), H(none * 999 + problem('NoEntry', 0, 0, 7, close=True)).hex()))
    print('# rows')
    for name, (value, said) in [('ended', ended[1]), ('cut', cut[0])]:
        print("printf '%s' >%s.cbor" % (octal(enc(value)), name))
        print("printf '%s' >want" % octal(said))


if sys.argv[1:] == ['tool']:
    tool()
else:
    table()
