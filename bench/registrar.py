"""The hashes and lengths of check_registrar, of keys, files and receipts, by the rules of docs/profile alone."""
import hashlib,struct
H=lambda b:hashlib.sha256(b).digest()
u32=lambda n:struct.pack('>I',n);u16=lambda n:struct.pack('>H',n)
OTS={1:(1,265,7),2:(2,133,6),3:(4,67,4),4:(8,34,0)}
def x(I,q,i,seed): return H(I+u32(q)+u16(i)+b'\xff'+seed)
def step(I,q,i,j,t): return H(I+u32(q)+u16(i)+bytes([j])+t)
def chain(I,q,i,t,a,b):
    for j in range(a,b): t=step(I,q,i,j,t)
    return t
def digits(Q,o):
    w,p,ls=OTS[o]
    def ds(b): 
        n=int.from_bytes(b,'big');k=len(b)*8//w
        return [(n>>(w*(k-1-i)))&(2**w-1) for i in range(k)]
    d=ds(Q);c=sum(2**w-1-v for v in d)<<ls
    return ds(Q+u16(c))[:p]
class Tree:
    def __init__(s,I,seed,o,h=5,lms=5):
        s.I,s.seed,s.o,s.h,s.lms=I,seed,o,h,lms
        w,p,ls=OTS[o]
        T={}
        for q in range(2**h):
            y=b''.join(chain(I,q,i,x(I,q,i,seed),0,2**w-1) for i in range(p))
            K=H(I+u32(q)+b'\x80\x80'+y)
            T[2**h+q]=H(I+u32(2**h+q)+b'\x82\x82'+K)
        for r in range(2**h-1,0,-1): T[r]=H(I+u32(r)+b'\x83\x83'+T[2*r]+T[2*r+1])
        s.T=T
        s.pub=u32(1)+u32(lms)+u32(o)+I+T[1]
    def sign(s,q,msg):
        C=H(s.I+u32(q)+u16(0xfffd)+b'\xff'+s.seed)
        Q=H(s.I+u32(q)+b'\x81\x81'+C+msg)
        a=digits(Q,s.o)
        y=b''.join(chain(s.I,q,i,x(s.I,q,i,s.seed),0,a[i]) for i in range(len(a)))
        path=[];r=2**s.h+q
        while r>1: path.append(s.T[r^1]);r//=2
        return u32(0)+u32(q)+u32(s.o)+C+y+u32(s.lms)+b''.join(path)
def head(m,n):
    if n<24:return bytes([m<<5|n])
    if n<256:return bytes([m<<5|24,n])
    if n<65536:return bytes([m<<5|25])+u16(n)
    if n<2**32: return bytes([m<<5|26])+u32(n)
    return bytes([m<<5|27])+struct.pack('>Q',n)
def enc(v):
    if v is None:return b'\xf6'
    if isinstance(v,int):return head(0,v) if v>=0 else head(1,-1-v)
    if isinstance(v,bytes):return head(2,len(v))+v
    if isinstance(v,str):return head(3,len(v.encode()))+v.encode()
    if isinstance(v,list):return head(4,len(v))+b''.join(map(enc,v))
    if isinstance(v,tuple):return head(6,v[0])+enc(v[1])
    if isinstance(v,dict):return head(5,len(v))+b''.join(enc(k)+enc(w) for k,w in sorted(v.items(),key=lambda e:enc(e[0])))
    raise 0
def tbs(prot,pay): return enc(["Signature1",prot,b'',pay])
def st(tree,q,iss,sub,typ,kid,pay,alg=-46):
    d={3:typ,4:kid,15:{1:iss,2:sub}}
    if alg is not None:d[1]=alg
    p=enc(d)
    return enc((18,[p,{},pay,tree.sign(q,tbs(p,pay))]))
def leaf(e):return H(b'\0'+e)
def node(a,b):return H(b'\1'+a+b)
def mth(l):
    if len(l)==1:return leaf(l[0])
    k=1
    while 2*k<len(l):k*=2
    return node(mth(l[:k]),mth(l[k:]))
def rprot(name,kid,size):return enc({1:-46,4:kid,15:{1:name},395:1,-70001:size})
def path(m,D):
    if len(D)==1:return []
    k=1
    while 2*k<len(D):k*=2
    return path(m,D[:k])+[mth(D[k:])] if m<k else path(m-k,D[k:])+[mth(D[:k])]
def sub(m,D,b):
    if m==len(D):return [] if b else [mth(D)]
    k=1
    while 2*k<len(D):k*=2
    return sub(m,D[:k],b)+[mth(D[k:])] if m<=k else sub(m-k,D[k:],False)+[mth(D[:k])]
class Log:
    def __init__(s,tree,name,gov,maxe,block):
        s.t=tree;s.name=name;s.kid=H(tree.pub);s.block=block;s.res=0;s.next=0;s.entries=[];s.sigs=[];s.rec=[]
        s.rec.append(enc([0,1,name,gov,tree.pub,[[tree.lms,tree.o]],maxe,block]))
    def add(s,at,rule,stm):
        if s.next==s.res:
            s.res=min(s.res+s.block,32);s.rec.append(enc([1,s.res]))
        e=enc([1,at,rule,stm]);s.entries.append(e);n=len(s.entries);i=s.next;s.next+=1
        sig=s.t.sign(i,tbs(rprot(s.name,s.kid,n),mth(s.entries)))
        s.sigs.append((n,sig,at,rule));s.rec.append(enc([2,[e],i,sig]))
    def reload(s):s.next=s.res
    def receipt(s,i):
        n,sig,at,rule=s.sigs[i]
        return enc((18,[rprot(s.name,s.kid,n),{396:{-1:[enc([n,i,path(i,s.entries[:n])])]},-70002:[at,rule]},None,sig]))
    def cons(s,old):
        n,sig,_,_=s.sigs[-1]
        return enc((18,[rprot(s.name,s.kid,n),{396:{-2:[enc([old,n,sub(old,s.entries[:n],True)])]}},None,sig]))
    def file(s):return b'\1'+b''.join(u32(len(b))+b+b'\1' for b in s.rec)[:-1]+b'\0'
    def keys(s):return enc([{1:5,2:s.kid,3:-46,-1:s.t.pub}])
if __name__=='__main__':
    gov=Tree(b'\x12'*16,b'\x11'*32,1);iss=Tree(b'\x22'*16,b'\x21'*32,1);svc=Tree(b'\x09'*16,b'\x07'*32,1)
    G=["gov",b'\x01',gov.pub];A=["acme",b'\x02',iss.pub]
    PT="application/vnd.scitt-policy+cbor";M=1700000000
    d=lambda n,b:print(n,len(b),H(b).hex())
    policy=lambda version,condition:enc([1,version,[G],[A] if condition else [],[[100,1,condition]] if condition else []])
    ruled=lambda q,payload:st(gov,q,"gov","policy",PT,b'\1',payload)
    issued=lambda q,payload:st(iss,q,"acme","pkg-0","text/plain",b'\2',payload)
    # the file of a log with these entries, each a moment, a rule and a statement; None stands for a stop
    def left(maxe,block,*entries):
        L=Log(svc,"log",G,maxe,block)
        for e in entries:
            if e is None:L.reload()
            else:L.add(*e)
        return L.file()
    P=policy(1,[0]);g=ruled(0,P);a=issued(0,b'\0')
    print('--- life')
    L=Log(svc,"log",G,100,4)
    d('boot',policy(0,None));d('keys',L.keys());d('policy statement',g);d('created',L.file())
    L.add(M,1,g);d('receipt0',L.receipt(0));d('cons1of1',L.cons(1));d('file1',L.file())
    L.reload();L.add(M+1,100,a);d('acme',a);d('receipt1',L.receipt(1));d('receipt0 again',L.receipt(0));d('cons1of2',L.cons(1));d('cons2of2',L.cons(2));d('file2',L.file())
    d('P',P);print('kept',svc.pub.hex());print('other',Tree(b'\x09'*16,b'\x08'*32,1).pub.hex())
    print('next',L.next)
    print('--- openings')
    d('no file',b'');d('begun',left(100,4))
    print('--- rulings')
    print('full: lengths',len(g),len(a),'one and two',len(g)+len(a),len(g)+2*len(a))
    d('one',left(1,4,(M,1,g)))
    d('two',left(2,4,(M,1,g),(M+1,100,a)))
    d('policies',left(100,4,(1000,1,g),(1001,100,a),(1002,1,ruled(2,policy(2,None)))))
    d('keys',left(100,4,(1000,1,g)))
    d('counts',left(100,64,(1000,1,ruled(0,policy(1,[8,1]))),(1000,100,a)))
    d('many',left(100,64,(1000,1,g),*[(1000,100,issued(q,bytes([q]))) for q in range(31)]))
    print('--- faults')
    r=ruled(0,policy(1,None))
    d('made again',left(100,4,(1000,1,r)))
    def spent(moment,s):
        L=Log(svc,"log",G,100,4);L.rec.append(enc([1,4]));L.res=4;L.next=1;L.add(moment,1,s);return L.file()
    d('index 1',spent(1000,r));d('another with index 1',spent(1001,g))
    d('stop before the reserve',left(100,4,(1001,1,g)))
    def reserved():
        L=Log(svc,"log",G,100,4);L.rec.append(enc([1,4]));L.res=4;L.next=4;L.add(1001,1,g);return L.file()
    d('stop behind the reserve',reserved())
    d('stop behind the entry',left(100,4,(1000,1,r)))
