"""Writes the journal of a log of many small entries, by the CBOR, LMS and Merkle tree of forms.py: many.py COUNT FOLDER.

The log has COUNT entries: a policy that admits all of one issuer, and statements of a few bytes of that issuer. Service and issuer have keys of
two levels of height 10 and LM-OTS code 3, so an audit of COUNT entries checks 2 COUNT signatures, of two levels each but for the policy's.
It also writes `first` and `last`, the same journal with its first gates alone open, up to a tenth of the entries and up to all but a tenth of
them; and for as many bare checks a trust file and a statement that has the receipt of one entry CHECKS times over.
"""
import os, sys
sys.dont_write_bytecode=True
from forms import *
CHECKS=1500
class Hss:
    def __init__(self,name):
        self.name=name; self.top=self.tree(b'top'); self.at=None
        self.pub=u32(2)+self.top.lms_pub
    def tree(self,which):
        seed=H(self.name+which); return Key(seed,H(b'I'+seed)[:16],3,10)
    def sign(self,n,msg):
        if self.at!=n//1024:
            self.at=n//1024; self.low=self.tree(u32(self.at))
            self.signed=self.top.lms_sign(self.at,self.low.lms_pub)
        return u32(1)+self.signed+self.low.lms_pub+self.low.lms_sign(n%1024,msg)
count=int(sys.argv[1]); folder=sys.argv[2]
service=Hss(b'service'); issuer=Hss(b'issuer'); gov=Key(H(b'gov'),H(b'gov')[:16],3)
def statement(key,q,iss,kid,sub,payload,ctype=None):
    p={1:-46,4:kid,15:{1:iss,2:sub}}
    if ctype: p[3]=ctype
    prot=enc(p)
    return prot,payload,key.sign(q,tbs(prot,payload))
def logged(s): return tag(18,enc([s[0],{},s[1],s[2]]))
def protected(size): return enc({1:-46,4:H(service.pub),15:{1:"log"},395:1,-70001:size})
policy=enc([1,1,[["gov",b"g",gov.pub]],[["acme",b"a",issuer.pub]],[[100,1,[0]]]])
# the peaks of the leaves so far, the largest first, each beside its number of leaves
def more(peaks,leaf):
    peaks=peaks+[(1,leaf)]
    while len(peaks)>1 and peaks[-1][0]==peaks[-2][0]:
        (n,a),(_,b)=peaks[-2:]; peaks=peaks[:-2]+[(2*n,H(b'\1'+a+b))]
    return peaks
def root(peaks):
    r=peaks[-1][1]
    for _,p in peaks[-2::-1]: r=H(b'\1'+p+r)
    return r
gates=[]
with open(os.path.join(folder,'whole'),'wb') as f:
    def record(body):
        gates.append(f.tell()); f.write(b'\1'+u32(len(body))+body)
    record(enc([0,1,"log",["gov",b"g",gov.pub],service.pub,[[6,3],[6,3]],count,64]))
    peaks=[]; starts=[]
    for n in range(count):
        if n%64==0: record(enc([1,min(n+64,2**20)]))
        s=statement(gov,0,"gov",b"g","policy",policy,"application/vnd.scitt-policy+cbor") if n==0 else statement(issuer,n-1,"acme",b"a","pkg:%d"%n,b"x")
        rule=1 if n==0 else 100
        leaf=enc([1,1000+n,rule,logged(s)])
        before=peaks; peaks=more(peaks,H(b'\0'+leaf))
        sig=service.sign(n,tbs(protected(n+1),root(peaks)))
        starts.append(f.tell())
        record(enc([2,[leaf],n,sig]))
        if n==min(count,1024)-1: shown=(n,s,rule,[p for _,p in before[::-1]],sig)
    f.write(b'\0')
whole=open(os.path.join(folder,'whole'),'rb').read()
def front(name,n):
    # the first gate that is shut is the one before entry n
    end=starts[n] if n<count else len(whole)-1
    with open(os.path.join(folder,name),'wb') as f: f.write(whole[:end]+b'\0')
front('first',count//10); front('last',count-count//10)
n,s,rule,path,sig=shown
proof=enc([n+1,n,path])
receipt=tag(18,enc([protected(n+1),{396:{-1:[proof]},-70002:[1000+n,rule]},None,sig]))
with open(os.path.join(folder,'statement'),'wb') as f: f.write(tag(18,enc([s[0],{394:[receipt]*CHECKS},s[1],s[2]])))
with open(os.path.join(folder,'trust'),'wb') as f: f.write(enc([1,[["log",service.pub]],[]]))
print('entries %d bytes %d root %s checks %d'%(count,len(whole),root(peaks).hex(),CHECKS))
