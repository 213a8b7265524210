"""Issuers' keys and the statements that they sign, from the rules of docs/profile/hss.md, keys.md and statements.md.

It prints the public key, its digest, and of each statement the length and the SHA-256 digest, for the tests of `keygen` and `sign`. It has its own
HSS over hashlib (RFC 8554, with the derivation of the random string and of lower trees that the profile fixes) and the CBOR of forms.py.
"""
import sys
sys.dont_write_bytecode=True
from forms import H,u8,u16,u32,enc,head,tag,tbs
# code: digit bits, digits, checksum shift (RFC 8554, 4.1)
OTS={1:(1,265,7),2:(2,133,6),3:(4,67,4),4:(8,34,0)}
class Tree:
    def __init__(self,code,seed,I):
        self.code=code; self.seed=seed; self.I=I
        self.w,self.p,self.ls=OTS[code]
        self.T={32+q:H(I+u32(32+q)+b'\x82\x82'+self.leaf(q)) for q in range(32)}
        for r in range(31,0,-1): self.T[r]=H(I+u32(r)+b'\x83\x83'+self.T[2*r]+self.T[2*r+1])
        self.pub=u32(5)+u32(code)+I+self.T[1]
    def secret(self,q,i): return H(self.I+u32(q)+u16(i)+b'\xff'+self.seed)
    def chain(self,q,i,a,b):
        t=self.secret(q,i) if a==0 else None
        for j in range(a,b): t=H(self.I+u32(q)+u16(i)+u8(j)+t)
        return t
    def leaf(self,q):
        return H(self.I+u32(q)+b'\x80\x80'+b''.join(self.chain(q,i,0,2**self.w-1) for i in range(self.p)))
    def digits(self,Q):
        def cut(b): return [int.from_bytes(b,'big')>>(8*len(b)-self.w*(k+1)) & (2**self.w-1) for k in range(8*len(b)//self.w)]
        s=sum(2**self.w-1-d for d in cut(Q))<<self.ls
        return (cut(Q)+cut(u16(s)))[:self.p]
    def sign(self,q,msg):
        C=self.secret(q,0xfffd)
        Q=H(self.I+u32(q)+b'\x81\x81'+C+msg)
        y=b''.join(self.chain(q,i,0,a) for i,a in enumerate(self.digits(Q)))
        r=32+q; path=b''
        while r>1: path+=self.T[r^1]; r//=2
        return u32(q)+u32(self.code)+C+y+u32(5)+path
class Signer:
    def __init__(self,codes,seed,I):
        self.codes=codes; self.top=Tree(codes[0],seed,I)
        self.pub=u32(len(codes))+self.top.pub
    def sign(self,index,msg):
        tree=self.top; out=u32(len(self.codes)-1)
        for k,code in enumerate(self.codes[1:]):
            q=index//32**(len(self.codes)-1-k)%32
            low=Tree(code,tree.secret(q,0xfffe),tree.secret(q,0xffff)[:16])
            out+=tree.sign(q,low.pub)+low.pub; tree=low
        return out+tree.sign(index%32,msg)
def statement(key,index,iss,sub,kind,nbf,exp,payload):
    claims={1:iss,2:sub}
    if exp is not None: claims[4]=exp
    if nbf is not None: claims[5]=nbf
    prot=enc({1:-46,3:kind,4:H(key.pub),15:claims})
    return tag(18,enc([prot,{},payload,key.sign(index,tbs(prot,payload))]))
SEED=bytes(range(32)); ID=bytes(range(100,116))
def show(name,key): print(name,key.pub.hex(),H(key.pub).hex())
def row(name,s): print(name,len(s),H(s).hex())
if __name__=='__main__':
    one=Signer([1],SEED,ID); two=Signer([2,1],SEED,ID)
    show('h5w1',one); show('h5w2,h5w1',two)
    row('plain',statement(one,0,'acme','pkg','text/plain',None,None,b'payload'))
    row('moments',statement(one,1,'acme','pkg','text/plain',1700000000,2**63-1,b'payload'))
    row('long',statement(one,2,'a'*1024,'b'*1024,'c'*1024,0,None,b'x'*300))
    row('last',statement(one,31,'\u00e9','s','',None,0,b''))
    row('second tree',statement(two,33,'acme','pkg','text/plain',None,None,b'payload'))
    short=statement(one,0,'acme','pkg','text/plain',5,6,b'hi')
    row('shown',short)
    w8=Signer([4],bytes.fromhex('1a560d6fd368bb36f5a378619171e27ecc4f60a8600264af8999da8fc45ba306'),bytes.fromhex('833180939f21f22882934805a4077165'))
    show('h5w8',w8)
