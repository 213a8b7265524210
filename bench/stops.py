"""The receipts of a policy and a statement with keys of height 5 and w = 4, for check_stops, by the rules of docs/profile alone."""
from registrar import Tree, Log, H, enc, st

if __name__ == '__main__':
    gov = Tree(b'\x12' * 16, b'\x11' * 32, 3)
    iss = Tree(b'\x22' * 16, b'\x21' * 32, 3)
    svc = Tree(b'\x09' * 16, b'\x07' * 32, 3)
    G = ['gov', b'\x01', gov.pub]
    A = ['acme', b'\x02', iss.pub]
    policy = enc([1, 1, [G], [A], [[100, 1, [0]]]])
    genesis = st(gov, 0, 'gov', 'policy', 'application/vnd.scitt-policy+cbor', b'\1', policy)
    acme = st(iss, 0, 'acme', 'pkg-0', 'text/plain', b'\2', b'\0')
    log = Log(svc, 'log', G, 100, 4)
    log.add(1700000000, 1, genesis)
    print('receipt 0', H(log.receipt(0)).hex())
    log.add(1700000001, 100, acme)
    print('receipt 1', H(log.receipt(1)).hex())
