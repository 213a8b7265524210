"""Statements, and what logs judge them to be, from the rules of docs/profile/judgement.md.

It prints a table for tests, beside the records of logs.py. Its judge names every row of the table of judgement that applies, by a statement's
parts as they were put together, so that each row is seen as the first that applies, and before each later one that applies with it.
"""
import sys
sys.dont_write_bytecode=True
from logs import in_parts,PT,I,RULES,COUNTING,policy,gov,issuer,J,g,a,c,g2,gc
from forms import enc,tag,tbs
class Log:
    """The records' names, the policy in force, and each entry's issuer, subject and statement."""
    def __init__(self,names,version,governors,issuers,rules,entries,last):
        self.names=names; self.version=version; self.governors=governors; self.issuers=issuers
        self.rules=rules; self.entries=entries; self.last=last
G=[["gov",b"g",gov.pub]]
E0,EA,E2,EC=("gov","policy",g),("acme","pkg",a),("gov","policy",g2),("gov","policy",gc)
bootstrap=Log('header',0,G,[],[],[],0)
one=Log('header reserve4 genesis',1,G,I,RULES,[E0],1000)
two=Log('header reserve4 genesis acme',1,G,I,RULES,[E0,EA],1001)
removed=Log('header reserve4 genesis acme removed',2,G,I[1:],RULES,[E0,EA,E2],1001)
counting=Log('header reserve4 counting',1,G,I,COUNTING,[EC],1000)
counted=Log('header reserve4 counting counted',1,G,I,COUNTING,[EC,EA],1000)
class Statement:
    """A statement; `signed` is the key that it is signed by, `document` the version of the document that its payload is."""
    def __init__(self,iss,kid,signed,q,payload,policy=False,document=None,nbf=None,exp=None,alg=-46,given=None):
        claims={1:iss,2:'policy' if policy else 'pkg'}
        if exp is not None: claims[4]=exp
        if nbf is not None: claims[5]=nbf
        p={4:kid,15:claims}
        if alg is not None: p[1]=alg
        if policy: p[3]=PT
        protected=enc(p)
        signature=signed.sign(q,tbs(protected,payload)) if signed else J
        self.bytes=given or tag(18,enc([protected,{},payload,signature]))
        self.iss=iss; self.kid=kid; self.key=signed and signed.pub; self.sub=claims[2]; self.policy=policy
        self.document=document; self.nbf=nbf; self.exp=exp; self.alg=alg
def holds(condition,log,s):
    kind=condition[0]
    if kind==0: return all(holds(part,log,s) for part in condition[1:])
    if kind==3: return s.iss==condition[1]
    return sum(e[0]==s.iss for e in log.entries)<condition[1]
# the rows that apply, in their order, each beside its verdict
def rows(log,s,moment):
    keys=[k for iss,kid,k in (log.governors if s.policy else log.issuers) if (iss,kid)==(s.iss,s.kid)]
    ruled=[r for r in log.rules if holds(r[2],log,s)]
    table=[
        (s.alg!=-46,'Deny 2'),
        (s.policy and not keys,'Deny 3'),
        (not s.policy and not keys,'Deny 4'),
        # no key that is named verifies it; where none is named, none that anybody has
        (s.key is None or keys and s.key!=keys[0],'Deny 5'),
        (s.nbf is not None and moment<s.nbf,'Deny 6'),
        (s.exp is not None and moment>=s.exp,'Deny 7'),
        (s.policy and s.document is None,'Deny 8'),
        (s.policy and s.document is not None and s.document<=log.version,'Deny 9'),
        (s.policy,'Admit 1'),
        (ruled,ruled and '%s %d'%('Admit' if ruled[0][1] else 'Deny',ruled[0][0])),
        (not ruled,'Deny 0'),
    ]
    return [(k+1,verdict) for k,(applies,verdict) in enumerate(table) if applies]
def known(log,s): return [i for i,e in enumerate(log.entries) if e[2]==s.bytes]
def acme(q,payload,**more): return Statement('acme',b'a',more.pop('signed',issuer),q,payload,**more)
def governor(q,payload,**more): return Statement('gov',b'g',more.pop('signed',gov),q,payload,policy=True,**more)
P1,P2=policy(1,I),policy(2,I)
fine=acme(4,b'fine')
late=acme(5,b'late',exp=1001); early=acme(6,b'early',nbf=1000)
version1=governor(3,P1,document=1); version2=governor(4,P2,document=2)
held=acme(0,b'one',given=a); first=governor(0,P1,document=1,given=g)
again=acme(3,b'four',given=c)
# one that has receipts beside it has the logged form of the one that has none
with_receipts=a.replace(b'g\xa0Cone',b'g\xa1'+enc(394)+enc([b'r'])+b'Cone')
assert len(with_receipts)==len(a)+6
cases=[
 # each row
 (one,1000,acme(7,b'alg',alg=-47)),(one,1000,acme(8,b'alg',alg=None)),(one,1000,acme(9,b'alg',alg='HSS-LMS')),
 (one,1000,Statement('acme',b'a',issuer,10,P2,policy=True,document=2)),(one,1000,Statement('gov',b'h',gov,5,P2,policy=True,document=2)),
 (one,1000,Statement('gov',b'g',gov,6,b'gov')),(one,1000,Statement('acme',b'z',issuer,11,b'kid')),(bootstrap,1000,fine),
 (one,1000,acme(12,b'key',signed=gov)),(one,1000,governor(13,P2,signed=issuer,document=2)),
 (one,1000,acme(14,b'nbf',nbf=1001)),(one,1000,acme(15,b'exp',exp=1000)),(one,1000,acme(16,b'never',exp=0)),
 (one,1000,governor(7,J)),(one,1000,governor(8,b'')),(one,1000,governor(9,P2+J)),(one,1000,governor(10,policy(0,I))),
 (one,1000,version1),(one,1000,version2),(bootstrap,5,version1),(one,1000,governor(11,policy(2**32-1,I),document=2**32-1)),
 (one,1000,fine),(one,1000,Statement('bolt',b'b',issuer,17,b'bolt')),
 (counting,1000,fine),(counting,990,fine),(counted,1000,fine),(counted,1000,Statement('bolt',b'b',issuer,18,b'bolt')),
 (removed,1001,again),
 # two neighbours
 (one,1000,Statement('acme',b'a',None,0,P2,policy=True,document=2,alg=-47)),(one,1000,Statement('none',b'a',None,0,b'both',alg=-47)),
 (one,1000,Statement('acme',b'a',None,0,P2,policy=True,document=2)),(one,1000,Statement('none',b'a',None,0,b'both')),
 (one,1000,acme(0,b'both',signed=None,nbf=1001)),(one,1000,acme(19,b'both',nbf=1001,exp=1000)),
 (one,1000,governor(12,J,exp=1000)),(one,1000,governor(13,P1,document=1,exp=1000)),
 # the moments
 (one,1000,late),(one,1001,late),(one,10,late),(one,1000,early),(one,999,early),(bootstrap,999,Statement('gov',b'g',gov,14,P1,policy=True,document=1,nbf=1000)),
 (one,2**64-1,acme(20,b'last',nbf=2**63-1)),(one,2**64-1,acme(21,b'last',exp=2**63-1)),
 # a known one, whatever row applies
 (one,0,first),(two,1001,held),(two,2**64-1,held),(removed,5,held),(removed,5,first),
]
# the first two rows that apply to a statement of each kind, where both can
PAIRS={(1,2),(1,3),(2,4),(3,4),(4,5),(5,6),(6,7),(6,8),(8,9),(9,10)}
if __name__=='__main__':
    firsts=set(); pairs=set(); lines=[]
    for log,moment,s in cases:
        at=max(moment,log.last)
        places=known(log,s); applying=rows(log,s,at)
        if places: said='Known %d'%places[0]
        else:
            said=applying[0][1]; firsts.add(applying[0][0]); pairs.add(tuple(k for k,_ in applying[:2]))
        lines.append((log.names,moment,s.bytes,'%s at %d'%(said,at)))
    lines.append((two.names,1001,with_receipts,'Known 1 at 1001'))
    assert firsts==set(range(1,12)) and PAIRS<=pairs,(firsts,PAIRS-pairs)
    print('// The names of a log\'s records, a moment, a statement in hexadecimal, and what it is judged to be at the judged moment, by\n// bench/judgements.py.')
    in_parts('JUDGED','&[[&str; 4]]',['    ["%s", "%d", "%s", "%s"],\n'%(names,moment,b.hex(),said) for names,moment,b,said in lines],4)
