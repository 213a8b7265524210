"""What a peer hears that registers a policy and a bill of materials of 180,000 bytes, for check_sessions, by the rules of docs/profile alone.

The keys of the issuer and of the log have two levels of height 5 and w = 8; the governor's is that of sessions.py.
"""
from registrar import Tree, H, enc, st, tbs, rprot, mth, path
from sessions import answer
from signing import Signer

T = 1700000000


def receipt(key, index, entries, at, rule):
    size = len(entries)
    protected = rprot('log', H(key.pub), size)
    signature = key.sign(index, tbs(protected, mth(entries)))
    proof = enc([size, size - 1, path(size - 1, entries)])
    return enc((18, [protected, {396: {-1: [proof]}, -70002: [at, rule]}, None, signature]))


if __name__ == '__main__':
    gov = Tree(b'\x12' * 16, b'\x11' * 32, 1)
    issuer = Signer([4, 4], b'\x31' * 32, b'\x31' * 16)
    log = Signer([4, 4], b'\x07' * 32, b'\x09' * 16)
    name = 'https://acme.example'
    kid = H(issuer.pub)
    policy = enc([1, 1, [['gov', b'\x01', gov.pub]], [[name, kid, issuer.pub]], [[100, 1, [0]]]])
    genesis = st(gov, 0, 'gov', 'policy', 'application/vnd.scitt-policy+cbor', b'\1', policy)
    protected = enc({1: -46, 3: 'application/spdx+json', 4: kid, 15: {1: name, 2: 'pkg:generic/acme-tool@2.1'}})
    payload = b'\x20' * 180000
    bill = enc((18, [protected, {}, payload, issuer.sign(0, tbs(protected, payload))]))
    entries = [enc([1, T, 1, genesis])]
    first = receipt(log, 0, entries, T, 1)
    entries.append(enc([1, T + 1, 100, bill]))
    second = receipt(log, 1, entries, T + 1, 100)
    text = answer(201, 'cose', first, 1, location=0) + answer(201, 'cose', second, 2, location=1) + answer(200, 'cose', bill, 2)
    # the receipt, the statement's head alone, and the statement, on connections of their own
    alone = [answer(200, 'cose', second, 2), answer(200, 'cose', bill, 2, head=True), answer(200, 'cose', bill, 2)]
    for what, value in ('bill', bill), ('receipt', second), ('heard', text), *zip(('receipt heard', 'head heard', 'bill heard'), alone):
        print(what, len(value), H(value).hex())
