"""The rule that refuses a receipt one byte of which is one more, from the rules of docs/profile/receipts.md.

It prints a table for tests: of each range of bytes of the first receipt of transparent.py the first rule that fails. It has its own reader of
strict CBOR, its own reader of Merkle paths and its own verifier of HSS (RFC 8554, codes 5 and 4) over hashlib.
"""
import sys
sys.dont_write_bytecode=True
from forms import H,u8,u16,u32,OTS as TYPES,digits,enc,tbs
from transparent import whole,service,S,logged,entry
class Bad(Exception): pass
def need(holds):
    if not holds: raise Bad
class Reader:
    """Strict items of unsigned and negative numbers, strings, arrays, maps, tags and nil; every other item is bad here, since no receipt has one."""
    def __init__(self,b): self.b=b; self.at=0
    def take(self,n):
        need(self.at+n<=len(self.b)); self.at+=n
        return self.b[self.at-n:self.at]
    def argument(self):
        first=self.take(1)[0]; low=first&31
        if low<24: return first>>5,low
        need(low<28)
        n=int.from_bytes(self.take(1<<(low-24)),'big')
        need(n>=(24,1<<8,1<<16,1<<32)[low-24])
        return first>>5,n
    def item(self):
        start=self.at; major,n=self.argument()
        if major==0: return n
        if major==1: return -1-n
        if major==2: return self.take(n)
        if major==3:
            try: return self.take(n).decode()
            except UnicodeDecodeError: raise Bad
        if major==4: return [self.item() for _ in range(n)] if n<=4096 else need(False)
        if major==5: return self.map(n)
        if major==6: return ('tag',n,self.item())
        need(self.b[start]==0xf6)
        return None
    def map(self,n):
        pairs={}; last=None
        need(n<=4096)
        for _ in range(n):
            start=self.at; key=self.item(); spelled=self.b[start:self.at]
            need(last is None or last<spelled)
            last=spelled
            # a number and a text as keys are told apart, and nothing else is a key of a receipt
            need(type(key) in (int,str))
            pairs[key]=self.item()
        return pairs
def strict(b):
    need(type(b) is bytes)
    r=Reader(b); v=r.item(); need(r.at==len(b))
    return v
def number(v,most): need(type(v) is int and 0<=v<=most); return v
def receipt_of(b):
    v=strict(b)
    need(type(v) is tuple and v[1]==18 and type(v[2]) is list and len(v[2])==4)
    protected,unprotected,payload,signature=v[2]
    need(type(protected) is bytes and type(unprotected) is dict and payload is None and type(signature) is bytes)
    p=strict(protected)
    need(type(p) is dict and list(p)==[1,4,15,395,-70001] and p[1]==-46 and p[395]==1)
    kid,claims,size=p[4],p[15],number(p[-70001],2**32-1)
    need(type(kid) is bytes and len(kid)==32 and type(claims) is dict and list(claims)==[1])
    name=claims[1]
    need(type(name) is str and 1<=len(name.encode())<=128)
    return name,kid,size,protected,proof_of(unprotected),signature
def proof_of(u):
    need(list(u) in ([396,-70002],[396]))
    need(type(u[396]) is dict and len(u[396])==1)
    (kind,proofs),=u[396].items()
    need(kind==(-1 if len(u)==2 else -2) and type(proofs) is list and len(proofs)==1)
    v=strict(proofs[0])
    need(type(v) is list and len(v)==3 and type(v[2]) is list and len(v[2])<=32)
    need(all(type(h) is bytes and len(h)==32 for h in v[2]))
    a,b=number(v[0],2**32-1),number(v[1],2**32-1)
    if kind==-2: return None
    said=u[-70002]
    need(type(said) is list and len(said)==2)
    return a,b,v[2],number(said[0],2**64-1),number(said[1],65535)
# the standard's reading of a path (RFC 9162, 2.1.3.2)
def root_from(index,size,leaf,path):
    fn,sn,r=index,size-1,leaf
    for h in path:
        if sn==0: return None
        if fn&1 or fn==sn:
            r=H(b'\1'+h+r)
            while not fn&1 and fn: fn>>=1; sn>>=1
        else: r=H(b'\1'+r+h)
        fn>>=1; sn>>=1
    return r if sn==0 else None
def number_at(b,at): return int.from_bytes(b[at:at+4],'big')
# the standard's algorithms 4b, 6a and 8 (RFC 8554), the codes of the key and of the signature being the same
P=TYPES[4][1]
OTS=4+32+P*32
LMS=4+OTS+4+5*32
def lms_verifies(key,sig,message):
    if len(sig)!=LMS or number_at(key,0)!=5 or number_at(key,4)!=4: return False
    q=number_at(sig,0); I,top=key[8:24],key[24:]
    if number_at(sig,4)!=4 or number_at(sig,4+OTS)!=5 or q>=32: return False
    C=sig[8:40]
    ends=[]
    for i,a in enumerate(digits(H(I+u32(q)+u16(0x8181)+C+message),4)):
        t=sig[40+32*i:72+32*i]
        for j in range(a,255): t=H(I+u32(q)+u16(i)+u8(j)+t)
        ends.append(t)
    r=32+q
    t=H(I+u32(r)+u16(0x8282)+H(I+u32(q)+u16(0x8080)+b''.join(ends)))
    for k in range(5):
        h=sig[8+OTS+32*k:][:32]
        t=H(I+u32(r//2)+u16(0x8383)+(h+t if r&1 else t+h))
        r//=2
    return t==top
def hss_verifies(key,sig,message):
    levels=number_at(key,0)
    if len(sig)<4 or number_at(sig,0)!=levels-1: return False
    at,lms=4,key[4:]
    for _ in range(levels-1):
        below=sig[at+LMS:at+LMS+56]
        if len(below)!=56 or not lms_verifies(lms,sig[at:at+LMS],below): return False
        at+=LMS+56; lms=below
    return lms_verifies(lms,sig[at:],message)
def rule(b):
    try: name,kid,size,protected,proof,signature=receipt_of(b)
    except Bad: return 1
    if proof is None: return 2
    if name!='log' or kid!=H(service.pub): return 3
    proven,index,path,at,by=proof
    if proven!=size: return 4
    if index>=proven: return 5
    root=root_from(index,proven,H(b'\0'+entry(at,by,logged(S))),path)
    if root is None: return 6
    return 0 if hss_verifies(service.pub,signature,tbs(protected,root)) else 7
def changed(i): return whole[:i]+bytes([(whole[i]+1)%256])+whole[i+1:]
if __name__=='__main__':
    assert rule(whole)==0
    ranges=[]
    for i in range(len(whole)):
        r=rule(changed(i))
        assert r
        if ranges and ranges[-1][2]==r: ranges[-1][1]=i+1
        else: ranges.append([i,i+1,r])
    print('// Ranges of bytes of the first receipt, each from one place to before another, and the first rule that fails where one of them is one more,\n// by bench/changed.py.')
    print('pub const CHANGED: &[(usize, usize, u8)] = &[')
    for r in ranges: print('    (%d, %d, %d),'%tuple(r))
    print('];')
