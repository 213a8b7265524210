"""CBOR, LMS (RFC 8554, codes 5 and 6 over codes 3 and 4) and the Merkle tree over hashlib, for the programs that make values for tests. They
share nothing with the crates.
"""
import hashlib, struct
H=lambda b: hashlib.sha256(b).digest()
def u8(n): return struct.pack('>B',n)
def u16(n): return struct.pack('>H',n)
def u32(n): return struct.pack('>I',n)
# LM-OTS by its code (RFC 8554, 4.1): the bits of a digit, the chains, and the shift of the checksum ; LMS M32 H5 and H10 (codes 5 and 6)
OTS={3:(4,67,4),4:(8,34,0)}
LMS={5:5,10:6}
def digits(q,code):
    w,p,shift=OTS[code]
    def cut(b): return [(c>>s)&(2**w-1) for c in b for s in range(8-w,-1,-w)]
    s=sum(2**w-1-d for d in cut(q))
    return (cut(q)+cut(u16(s<<shift)))[:p]
def chain(front,t,n):
    for j in range(n): t=H(front+u8(j)+t)
    return t
# the LM-OTS code of keys that name none; set it before logs.py is read
CODE=4
class Key:
    def __init__(self,seed,I,code=None,h=5):
        code=code or CODE
        self.I=I; self.seed=seed; self.h=h; self.code=code
        w,p,_=OTS[code]
        self.T={}
        for q in range(2**h):
            ends=[chain(I+u32(q)+u16(i),self.x(q,i),2**w-1) for i in range(p)]
            K=H(I+u32(q)+u16(0x8080)+b''.join(ends))
            self.T[2**h+q]=H(I+u32(2**h+q)+u16(0x8282)+K)
        for r in range(2**h-1,0,-1): self.T[r]=H(I+u32(r)+u16(0x8383)+self.T[2*r]+self.T[2*r+1])
        self.lms_pub=u32(LMS[h])+u32(code)+I+self.T[1]
        self.pub=u32(1)+self.lms_pub
    def x(self,q,i): return H(self.I+u32(q)+u16(i)+u8(0xff)+self.seed)
    def lms_sign(self,q,msg):
        C=H(b'c'+self.seed+u32(q))
        Q=H(self.I+u32(q)+u16(0x8181)+C+msg)
        y=b''.join(chain(self.I+u32(q)+u16(i),self.x(q,i),a) for i,a in enumerate(digits(Q,self.code)))
        path=b''; r=2**self.h+q
        while r>1: path+=self.T[r^1]; r//=2
        return u32(q)+u32(self.code)+C+y+u32(LMS[self.h])+path
    def sign(self,q,msg): return u32(0)+self.lms_sign(q,msg)
def head(m,n):
    m<<=5
    if n<24: return bytes([m|n])
    for i,(lim,l) in enumerate(((1<<8,1),(1<<16,2),(1<<32,4),(1<<64,8))):
        if n<lim: return bytes([m|24+i])+n.to_bytes(l,'big')
def enc(v):
    if v is None: return b"\xf6"
    if isinstance(v,bool): raise 0
    if isinstance(v,int): return head(0,v) if v>=0 else head(1,-1-v)
    if isinstance(v,bytes): return head(2,len(v))+v
    if isinstance(v,str): return head(3,len(v.encode()))+v.encode()
    if isinstance(v,list): return head(4,len(v))+b''.join(map(enc,v))
    if isinstance(v,dict):
        ks=sorted((enc(k),enc(x)) for k,x in v.items())
        return head(5,len(v))+b''.join(a+b for a,b in ks)
def tag(n,b): return head(6,n)+b
def tbs(prot,payload): return enc(["Signature1",prot,b'',payload])
def mth(L):
    if not L: return H(b'')
    if len(L)==1: return H(b'\0'+L[0])
    k=1
    while 2*k<len(L): k*=2
    return H(b'\1'+mth(L[:k])+mth(L[k:]))
