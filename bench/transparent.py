"""Trust files, transparent statements and consistency receipts, from the rules of docs/profile/receipts.md.

It prints tables for tests, by the CBOR, LMS and Merkle tree of forms.py: a service's key of two levels (RFC 8554, 6, codes 5 and 4), whose
lower tree has a seed of its own, and an issuer's of one.
"""
import sys
sys.dont_write_bytecode=True
from forms import *
class TwoLevels:
    def __init__(self,seed,I,low_seed,low_I):
        self.top=Key(seed,I); self.low=Key(low_seed,low_I)
        self.pub=u32(2)+self.top.pub[4:]
    def sign(self,q,msg):
        next=self.low.pub[4:]
        return u32(1)+self.top.sign(0,next)[4:]+next+self.low.sign(q,msg)[4:]
service=TwoLevels(bytes(range(32)),bytes(range(16)),bytes(range(96,128)),bytes(range(48,64)))
issuer=Key(bytes(range(64,96)),bytes(range(32,48)))
other=Key(bytes(range(32,64)),bytes(range(16,32)))
def protected(name,key,size): return enc({1:-46,4:H(key),15:{1:name},395:1,-70001:size})
def signed(q,size,root): return service.sign(q,tbs(protected('log',service.pub,size),root))
def inclusion(size,index,path,at,rule): return enc({396:{-1:[enc([size,index,path])]},-70002:[at,rule]})
def consistency(old,size,path): return enc({396:{-2:[enc([old,size,path])]}})
# a receipt by its three parts
def receipt(prot,unprot,sig): return tag(18,head(4,4)+enc(prot)+unprot+b'\xf6'+enc(sig))
def statement(key,q,iss,kid,alg=-46):
    prot=enc({1:alg,4:kid,15:{1:iss,2:'pkg'}})
    return prot,b'hi',key.sign(q,tbs(prot,b'hi'))
def logged(s): return tag(18,enc([s[0],{},s[1],s[2]]))
def entry(at,rule,l): return enc([1,at,rule,l])
AT=1700000000
S=statement(issuer,0,'acme',b'a')
E=[entry(AT-1,1,b'first'),entry(AT,100,logged(S)),entry(AT,100,b'third'),entry(AT,100,b'fourth')]
L=[H(b'\0'+e) for e in E]
root=mth(E[:2]); four=mth(E)
P=protected('log',service.pub,2)
sig=signed(0,2,root)
ok=inclusion(2,1,[L[0]],AT,100)
whole=receipt(P,ok,sig)
assert len(P)==56 and len(tbs(P,root))==105 and len(whole)==2768
x=lambda b: b.hex()
def rows(name,doc,rs):
    print(doc)
    print('pub const %s: &[&str] = &['%name)
    for r in rs: print('    "%s",'%'|'.join(r))
    print('];\n')
if __name__=='__main__':
    print('// Values in hexadecimal, by bench/transparent.py, a program of its own in Python with its own CBOR, LMS and Merkle tree over hashlib. The')
    print('// service `log` has a key of two levels, the issuer `acme` with the kid `a` one of one, all of height 5 and width 8.\n')
    def const(name,b): print('pub const %s: &str =\n    "%s";\n'%(name,x(b)))
    const('SERVICE',service.pub); const('ISSUER',issuer.pub); const('OTHER',other.pub)
    # the statement in front of its unprotected map, and behind it
    def around(s): return x(tag(18,head(4,4)+enc(s[0]))),x(enc(s[1])+enc(s[2]))
    a=around(S)
    A47=around(statement(issuer,1,'acme',b'a',-47))
    forged=around((S[0],S[1],S[2][:-1]+bytes([S[2][-1]^1])))
    print('// The statement of `acme` in front of its unprotected map and behind it; one of the alg -47; and one with a changed signature.')
    print('pub const STATEMENTS: &[[&str; 2]] = &[')
    for s in (a,A47,forged): print('    ["%s", "%s"],'%s)
    print('];\n')
    print('// The signature over the root of two entries.')
    const('SIGNATURE',sig)
    print('// And the one over the root of four.')
    const('SIGNATURE_OF_FOUR',signed(1,4,four))
    n=protected('lag',service.pub,2); k=protected('log',issuer.pub,2)
    h=bytes(32)
    rs=[
     (P,ok,'accepted 2 %s 1 %d 100'%(x(root),AT)),
     (b'',ok,'refused 1'),
     (P,consistency(1,2,[L[1]]),'refused 2'),
     (n,ok,'refused 3'),
     (k,ok,'refused 3'),
     (P,inclusion(3,1,[L[0]],AT,100),'refused 4'),
     (protected('log',service.pub,3),ok,'refused 4'),
     (P,inclusion(2,2,[L[0]],AT,100),'refused 5'),
     (protected('log',service.pub,0),inclusion(0,0,[],AT,100),'refused 5'),
     (P,inclusion(2,1,[L[0],h],AT,100),'refused 6'),
     (P,inclusion(2,1,[],AT,100),'refused 6'),
     (P,inclusion(2,1,[h],AT,100),'refused 7'),
     (P,inclusion(2,0,[L[0]],AT,100),'refused 7'),
     (P,inclusion(2,1,[L[0]],AT+1,100),'refused 7'),
     (P,inclusion(2,1,[L[0]],AT,101),'refused 7'),
     (protected('log',service.pub,4),inclusion(4,1,[L[0],mth(E[2:])],AT,100),'refused 7'),
    ]
    rows('RECEIPTS','// A receipt\'s protected string, its unprotected map, and what becomes of it with that signature behind them.',[(x(p),x(u),w) for p,u,w in rs])
    C=lambda o,s,path: x(consistency(o,s,path))
    p2,p4=x(P),x(protected('log',service.pub,4))
    path34=[L[2],L[3],mth(E[:2])]
    r0,r1,r3=x(mth(E[:1])),x(root),x(mth(E[:3]))
    rows('GROWTH','// The same of a consistency receipt: the number of entries over whose root its signature is, its protected string, its unprotected map, the old\n// size and root that are given, and the answer.',[
     ('2',p2,C(1,2,[L[1]]),'1',r0,'consistent 2 '+r1),
     ('2',p2,C(2,2,[]),'2',r1,'consistent 2 '+r1),
     ('4',p4,C(3,4,path34),'3',r3,'consistent 4 '+x(four)),
     ('2','',C(1,2,[L[1]]),'1',r0,'refused 1'),
     ('2',p2,x(ok),'1',r0,'refused 2'),
     ('2',x(n),C(1,2,[L[1]]),'1',r0,'refused 3'),
     ('2',p2,C(1,3,[L[1]]),'1',r0,'refused 4'),
     ('2',p2,C(1,2,[L[1]]),'2',r0,'refused 5'),
     ('2',p2,C(0,2,[L[1]]),'0',r0,'refused 5'),
     ('2',p2,C(3,2,[L[1]]),'3',r0,'refused 5'),
     ('2',p2,C(1,2,[L[1],h]),'1',r0,'refused 6'),
     ('2',p2,C(1,2,[]),'1',r0,'refused 6'),
     ('4',p4,C(3,4,path34),'3',r0,'refused 6'),
     ('2',p2,C(1,2,[L[1]]),'1',x(h),'refused 7'),
     ('2',p2,C(1,2,[h]),'1',r0,'refused 7'),
    ])
    s=['log',service.pub]; i=['acme',b'a',issuer.pub]
    T=lambda v: x(enc(v))
    rows('TRUST','// Trust files, and what the decoder says of them.',[
     (T([1,[s],[]]),'1 0'),
     (T([1,[s,s],[i,i,i]]),'2 3'),
     (T([1,[['',service.pub]],[['',b'',issuer.pub]]]),'1 1'),
     (T([1,[],[]]),'BadTrust'),
     (T([2,[s],[]]),'BadTrust'),
     (T([1,[s]]),'BadTrust'),
     (T([1,[s],[],[]]),'BadTrust'),
     (T({1:[s]}),'BadTrust'),
     (T([1,{1:2},[]]),'BadTrust'),
     (T([1,[s],None]),'BadTrust'),
     (T([1,[['log',service.pub[:59]]],[]]),'BadTrust'),
     (T([1,[['log',service.pub+b'\0']],[]]),'BadTrust'),
     (T([1,[[b'log',service.pub]],[]]),'BadTrust'),
     (T([1,[['log',service.pub,1]],[]]),'BadTrust'),
     (T([1,[s],[['acme','a',issuer.pub]]]),'BadTrust'),
     (T([1,[s],[[b'acme',b'a',issuer.pub]]]),'BadTrust'),
     (T([1,[s],[['acme',b'a',issuer.pub[1:]]]]),'BadTrust'),
     (T([1,[s],[['acme',b'a']]]),'BadTrust'),
     ('','Cbor Truncated at 0'),
     (T([1,[s],[]])+'00','Cbor Trailing at %d'%len(enc([1,[s],[]]))),
     ('8301815818','Cbor Truncated at 3'),
     ('831801818080','Cbor NotShortest at 1'),
    ])
