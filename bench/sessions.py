"""The text of a session with the service, made by the rules of docs/profile alone: the lengths and hashes of check_sessions; scripts.py uses it for those of check_script."""
from registrar import Tree, Log, H, enc, st

TYPES = {'cose': 'application/cose', 'cbor': 'application/cbor', 'problem': 'application/vnd.scitt-problem+cbor'}
PHRASES = {200: 'OK', 201: 'Created', 400: 'Bad Request', 403: 'Forbidden', 404: 'Not Found', 405: 'Method Not Allowed',
           411: 'Length Required', 413: 'Payload Too Large', 415: 'Unsupported Media Type', 431: 'Request Header Fields Too Large',
           503: 'Service Unavailable'}
PROBLEMS = {'BadHead': (1, 400), 'BadStatement': (2, 400), 'Denied': (3, 403), 'NoRoute': (4, 404), 'NoEntry': (5, 404),
            'NoSuchSize': (6, 404), 'BadMethod': (7, 405), 'NoLength': (8, 411), 'TooLarge': (9, 413), 'BadType': (10, 415),
            'HeadTooLong': (11, 431), 'LogFull': (12, 503), 'KeyExhausted': (13, 503), 'DiskFault': (14, 503), 'ClockFault': (15, 503)}


def answer(status, kind, body, size, location=None, allow=None, close=False, head=False):
    lines = ['HTTP/1.1 %d %s' % (status, PHRASES[status]), 'Content-Type: ' + TYPES[kind]]
    if not head:
        lines.append('Content-Length: %d' % len(body))
    lines.append('Scitt-Log-Size: %d' % size)
    if location is not None:
        lines.append('Location: /entries/%d' % location)
    if allow:
        lines.append('Allow: ' + allow)
    if close:
        lines.append('Connection: close')
    return '\r\n'.join(lines).encode() + b'\r\n\r\n' + (b'' if head else body)


def problem(title, size, moment=0, a=0, b=0, **more):
    code, status = PROBLEMS[title]
    return answer(status, 'problem', enc({1: [code, size, moment, a, b], -1: title}), size, **more)


if __name__ == '__main__':
    gov = Tree(b'\x12' * 16, b'\x11' * 32, 1)
    iss = Tree(b'\x22' * 16, b'\x21' * 32, 1)
    svc = Tree(b'\x09' * 16, b'\x07' * 32, 1)
    G = ['gov', b'\x01', gov.pub]
    A = ['acme', b'\x02', iss.pub]
    P = enc([1, 1, [G], [A], [[100, 1, [0]]]])
    PT = 'application/vnd.scitt-policy+cbor'
    genesis = st(gov, 0, 'gov', 'policy', PT, b'\1', P)
    acme = st(iss, 0, 'acme', 'pkg-0', 'text/plain', b'\2', b'\0')
    boot = enc([1, 0, [G], [], []])
    log = Log(svc, 'log', G, 100, 4)
    T = 1700000000

    def show(name, text):
        print(name, len(text), H(text).hex())

    # before a policy: an unknown issuer with the algorithms -46 and -7, the bootstrap policy, the key set, a method that isn't allowed
    seven = st(iss, 0, 'acme', 'pkg-0', 'text/plain', b'\2', b'\0', alg=-7)
    text = problem('Denied', 0, T, 4) + problem('Denied', 0, T, 2) + answer(200, 'cbor', boot, 0) + answer(200, 'cbor', log.keys(), 0)
    text += problem('BadMethod', 0, allow='GET')
    show('before', text)
    # a life: the policy, a statement, the same again, and what is read of them
    text = b''
    log.add(T, 1, genesis)
    text += answer(201, 'cose', log.receipt(0), 1, location=0)
    log.add(T + 1, 100, acme)
    text += answer(201, 'cose', log.receipt(1), 2, location=1)
    text += answer(200, 'cose', log.receipt(1), 2, location=1)
    show('registered', text)
    text = answer(200, 'cose', log.receipt(0), 2) + answer(200, 'cose', log.receipt(1), 2) + answer(200, 'cose', acme, 2)
    text += answer(200, 'cose', log.cons(1), 2) + answer(200, 'cose', log.cons(2), 2) + answer(200, 'cbor', P, 2) + answer(200, 'cbor', log.keys(), 2)
    text += answer(200, 'cbor', P, 2, head=True)
    show('read', text)
    text = problem('NoEntry', 2, 0, 5) + problem('NoEntry', 2, 0, 5) + problem('NoSuchSize', 2, 0, 0) + problem('NoSuchSize', 2, 0, 3)
    for _ in range(7):
        text += problem('NoRoute', 2)
    text += problem('BadMethod', 2, allow='POST') + problem('BadMethod', 2, allow='POST', head=True) + problem('BadMethod', 2, allow='GET')
    text += problem('BadType', 2) + problem('BadType', 2) + problem('BadStatement', 2, 0, 1, 1) + problem('BadStatement', 2, 0, 2, 4) + problem('BadStatement', 2, 0, 3, 0)
    text += problem('NoRoute', 2, close=True)
    show('refused', text)
    show('acme', acme)
    show('log', log.file())
    # the 1,000th answer closes
    one = problem('NoEntry', 0, 0, 0)
    text = one * 999 + problem('NoEntry', 0, 0, 0, close=True)
    show('thousand', text)
    # heads that are refused
    show('head', problem('BadHead', 0, close=True))
    show('length', problem('NoLength', 0, close=True))
    show('coded head', problem('NoLength', 0, close=True, head=True))
    show('large', problem('TooLarge', 0, close=True))
    show('long', problem('HeadTooLong', 0, close=True))
    # a log with room for one entry
    full = Log(svc, 'log', G, 1, 4)
    full.add(T, 1, genesis)
    show('full', answer(201, 'cose', full.receipt(0), 1, location=0) + problem('LogFull', 1, 0, 1, len(genesis) + len(acme)))
    # policies follow each other: the second removes the issuer
    turned = Log(svc, 'log', G, 100, 4)
    empty = enc([1, 2, [G], [], []])
    turned.add(T, 1, genesis)
    text = answer(201, 'cose', turned.receipt(0), 1, location=0)
    turned.add(T + 1, 1, st(gov, 1, 'gov', 'policy', PT, b'\1', empty))
    text += answer(201, 'cose', turned.receipt(1), 2, location=1)
    text += problem('Denied', 2, T + 2, 9) + problem('Denied', 2, T + 1, 4) + answer(200, 'cbor', empty, 2)
    show('replaced', text)
    # a key of 32 indices is spent
    spent = Log(svc, 'log', G, 100, 4)
    spent.add(T, 1, genesis)
    text = answer(201, 'cose', spent.receipt(0), 1, location=0)
    for i in range(31):
        spent.add(T, 100, st(iss, i, 'acme', 'pkg-0', 'text/plain', b'\2', bytes([i])))
        text += answer(201, 'cose', spent.receipt(i + 1), i + 2, location=i + 1)
    show('spent', text + problem('KeyExhausted', 32, 0, 32, 32))
    # the clock fails at its second call
    timed = Log(svc, 'log', G, 100, 4)
    timed.add(1000, 1, genesis)
    text = answer(200, 'cbor', boot, 0) + answer(201, 'cose', timed.receipt(0), 1, location=0)
    show('clock', text + answer(200, 'cose', timed.receipt(0), 1) + problem('ClockFault', 1))
    # the disk fails in the first registration: before the entry, and in its record, which spends the index 0
    for index in range(2):
        failed = Log(svc, 'log', G, 100, 4)
        failed.res = 4
        failed.next = index
        failed.add(1000, 1, genesis)
        show('disk %d' % index, problem('DiskFault', 0) + answer(201, 'cose', failed.receipt(0), 1, location=0))
    # the disk fails at one read of the first entry, for a statement, a receipt or a consistency receipt, or behind them
    told = Log(svc, 'log', G, 100, 4)
    told.add(1000, 1, genesis)
    for failed in range(4):
        answers = [answer(200, 'cose', body, 1) for body in (genesis, told.receipt(0), told.cons(1))]
        answers[failed:failed + 1] = [problem('DiskFault', 1)] * (failed < 3)
        show('reading %d' % failed, answer(201, 'cose', told.receipt(0), 1, location=0) + b''.join(answers))
    # requests that are cut: nothing, the first answer, both
    show('nothing', b'')
    show('one', one)
    show('both', one + problem('BadMethod', 0, allow='GET'))
    # a link that fails at a write of the second answer's head or body, of the first one's body, or behind both
    other = answer(200, 'cbor', boot, 0)
    behind = one.index(b'\r\n\r\n') + 4
    show('link 2', one[:behind])
    show('link 3', one)
    show('link 4', one + other[:-len(boot)])
    show('link 5', one + other)
