"""Records of logs, and the first rule that the last record of each log breaks, from the rules of docs/profile/log.md.

It prints tables for tests, by the CBOR, LMS and Merkle tree of forms.py.
"""
import sys
sys.dont_write_bytecode=True
from forms import *
service=Key(bytes(range(32)),bytes(range(16)))
gov=Key(bytes(range(32,64)),bytes(range(16,32)))
issuer=Key(bytes(range(64,96)),bytes(range(32,48)))
def statement(key,q,iss,kid,sub,payload,ctype=None,bad=False,alg=-46):
    p={1:alg,4:kid,15:{1:iss,2:sub}}
    if ctype: p[3]=ctype
    prot=enc(p)
    sig=key.sign(q,tbs(prot,payload))
    if bad: sig=sig[:-1]+bytes([sig[-1]^1])
    return tag(18,enc([prot,{},payload,sig]))
def header(maxe=4,block=4,key=service.pub,levels=[[5,CODE]],name="log",iss="gov",kid=b"g"):
    return enc([0,1,name,[iss,kid,gov.pub],key,levels,maxe,block])
# a key of so many levels, the first of which is the service's
def levelled(n): return u32(n)+service.pub[4:]
def reserve(n): return enc([1,n])
def entry(at,rule,logged): return enc([1,at,rule,logged])
def text(size,root): return tbs(enc({1:-46,4:H(service.pub),15:{1:"log"},395:1,-70001:size}),root)
def batch(leaves,index,q=None,sig=None):
    if sig is None: sig=service.sign(index if q is None else q,text(len(leaves),mth(leaves)))
    return enc([2,[leaves[-1]],index,sig])
PT="application/vnd.scitt-policy+cbor"
RULES=[[100,1,[3,"acme"]],[101,1,[0]]]
COUNTING=[[102,0,[3,"bolt"]],[100,1,[8,1]]]
def policy(v,issuers,rules=RULES): return enc([1,v,[["gov",b"g",gov.pub]],issuers,rules])
I=[["acme",b"a",issuer.pub],["bolt",b"b",issuer.pub]]
g=statement(gov,0,"gov",b"g","policy",policy(1,I),PT)
g2=statement(gov,1,"gov",b"g","policy",policy(2,I[1:]),PT)
a=statement(issuer,0,"acme",b"a","pkg",b"one")
b=statement(issuer,1,"bolt",b"b","pkg",b"two")
gc=statement(gov,2,"gov",b"g","policy",policy(1,I,COUNTING),PT)
abad=statement(issuer,2,"acme",b"a","pkg",b"three",bad=True)
c=statement(issuer,3,"acme",b"a","pkg",b"four")
eg=entry(1000,1,g); ec=entry(1000,1,gc); ea=entry(1001,100,a); eb=entry(1001,101,b)
J=b'\0'
R={}
R['header']=header(); R['one']=header(maxe=1); R['none']=header(maxe=0); R['wide']=header(block=65)
R['tall']=header(levels=[[6,CODE]]); R['unlike']=header(key=levelled(2))
R['name_of_1']=header(name='l'); R['name_of_128']=header(name='l'*128); R['name_of_129']=header(name='l'*129); R['no_name']=header(name='')
R['iss_of_1']=header(iss='g'); R['iss_of_1024']=header(iss='g'*1024); R['iss_of_1025']=header(iss='g'*1025); R['no_iss']=header(iss='')
R['kid_of_64']=header(kid=b'g'*64); R['kid_of_65']=header(kid=b'g'*65); R['no_kid']=header(kid=b'')
R['two_levels']=header(key=levelled(2),levels=[[5,4],[6,1]]); R['three_levels']=header(key=levelled(3),levels=[[5,4],[6,3],[5,2]])
R['four_levels']=header(key=levelled(4),levels=[[5,4]]*4); R['no_levels']=header(key=levelled(0),levels=[])
R['a_tall_second_level']=header(key=levelled(2),levels=[[5,4],[7,4]]); R['one_level_more']=header(levels=[[5,4],[5,4]])
R['65536_entries']=header(maxe=65536); R['65537_entries']=header(maxe=65537)
R['block_of_1']=header(block=1); R['block_of_64']=header(block=64); R['no_block']=header(block=0)
R['key_of_59']=header(key=service.pub[:59]); R['key_of_61']=header(key=service.pub+J)
R['LMS_code_10']=header(levels=[[10,4]]); R['LM-OTS_code_5']=header(levels=[[5,5]])
for n in (0,1,4,5,8,9,32,33): R['reserve%d'%n]=reserve(n)
R['genesis']=batch([eg],0)
R['acme']=batch([eg,ea],1)
R['bolt']=batch([eg,ea,entry(1001,101,b)],2)
R['policy2']=batch([eg,entry(1001,1,g2)],1)
R['removed']=batch([eg,ea,entry(1001,1,g2)],2)
R['counting']=batch([ec],0); R['counted']=batch([ec,entry(1000,100,a)],1)
R['last_moment']=batch([eg,entry(2**64-1,100,a)],1)
R['rule_65535']=batch([eg,entry(1001,65535,a)],1,sig=J); R['rule_65536']=batch([eg,entry(1001,65536,a)],1,sig=J)
R['late_by_another_rule']=batch([eg,entry(999,101,a)],1,sig=J)
R['late']=batch([eg,entry(999,100,a)],1,sig=J)
R['rule']=batch([eg,entry(1001,101,a)],1,sig=J)
R['again']=batch([eg,entry(1001,1,g)],1,sig=J)
R['forged']=batch([eg,entry(1001,100,abad)],1,sig=J)
R['gone']=batch([eg,eg,entry(1001,100,c)],2,sig=J)
R['unsigned']=batch([eg,ea],1,sig=J)
R['genesis_at_1']=enc([2,[eg],1,service.sign(0,text(1,mth([eg])))])
R['noentry']=enc([2,[enc([1,1000,1])],0,J])
R['nostatement']=enc([2,[enc([1,1000,1,b'\0'])],0,J])
R['two']=enc([2,[eg,ea],0,J])
R['empty']=enc([2,[],0,J])
R['kind']=enc([3,1])
R['trailing']=reserve(4)+b'\0'
R['long']=b'\x82\x01\x18\x04'
R['changed']=R['acme'][:-1]+bytes([R['acme'][-1]^1])
rows=[
 ('header',''),('header reserve4',''),('header reserve1 genesis',''),('header reserve4 genesis acme bolt',''),('header reserve4 genesis policy2',''),('one reserve4 genesis',''),
 ('kind','Form'),('header trailing','Form'),('header long','Form'),('two','Form'),('header reserve4 two','Form'),('header empty','Form'),
 ('reserve4','Order'),('genesis','Order'),('header header','Order'),('header reserve4 one','Order'),
 ('none','Header'),('wide','Header'),('tall','Header'),('unlike','Header'),
 ('header reserve5','Reserve'),('header reserve4 reserve4','Reserve'),('header reserve4 reserve1','Reserve'),('header reserve33','Reserve'),
 ('header reserve4 noentry','EntryForm'),('header reserve4 nostatement','EntryForm'),
 ('header reserve4 genesis late','Moment'),
 ('header reserve4 genesis rule','Verdict 101 100'),('header reserve4 genesis again','Verdict 1 0'),('header reserve4 genesis forged','Verdict 100 5'),
 ('header reserve4 acme','Verdict 100 4'),('header reserve4 genesis policy2 gone','Verdict 100 4'),
 ('one reserve4 genesis unsigned','Full'),
 ('header genesis','Index'),('header reserve1 genesis acme','Index'),('header reserve4 genesis unsigned','Index'),('header reserve4 genesis_at_1','Index'),
 ('header reserve4 genesis changed','Signature'),
 # the limits, and two rules that fail together
 ('name_of_1',''),('name_of_128',''),('name_of_129','Header'),('no_name','Header'),('iss_of_1',''),('iss_of_1024',''),('iss_of_1025','Header'),
 ('no_iss','Header'),('kid_of_64',''),('kid_of_65','Header'),('no_kid','Header'),('two_levels',''),('three_levels',''),('four_levels','Header'),
 ('no_levels','Header'),('a_tall_second_level','Header'),('one_level_more','Header'),('65536_entries',''),('65537_entries','Header'),
 ('block_of_1',''),('block_of_64',''),('no_block','Header'),('key_of_59','Form'),('key_of_61','Form'),('LMS_code_10','Form'),('LM-OTS_code_5','Form'),
 ('header reserve0','Reserve'),('header reserve4 reserve8',''),('header reserve4 reserve9','Reserve'),('block_of_64 reserve32',''),
 ('block_of_64 reserve33','Reserve'),('header reserve4 genesis last_moment',''),('header reserve4 genesis rule_65535','Verdict 65535 100'),
 ('header reserve4 genesis rule_65536','EntryForm'),('header reserve4 genesis late_by_another_rule','Moment'),('one reserve4 genesis rule','Verdict 101 100'),
 ('header reserve4 genesis acme removed',''),('header reserve4 counting counted',''),
]
def names_of(rows): return list(dict.fromkeys(n for l,_ in rows for n in l.split()))
def table(name,rows,doc):
    print(doc)
    print('pub const %s: &[[&str; 6]] = &['%name)
    for l,w in rows:
        x=[w]+l.split()
        x+=['']*(6-len(x))
        print('    [%s],'%', '.join('"%s"'%t for t in x))
    print('];\n')
def parts(lines,n):
    # these lines in n parts of about the same length
    most=sum(map(len,lines))/n; all=[[]]; size=0
    for l in lines:
        if size+len(l)>most and len(all)<n and all[-1]: all.append([]); size=0
        all[-1].append(l); size+=len(l)
    return all
def in_parts(name,kind,lines,n):
    for i,part in enumerate(parts(lines,n)): print('pub const %s_%d: %s = &[\n%s];\n'%(name,i,kind,''.join(part)))
def records(names): in_parts('RECORDS','&[&str]',['    "%s|%s",\n'%(n,R[n].hex()) for n in names],3)
if __name__=='__main__':
    print('// Records of logs in hexadecimal, each behind its name. A program of its own in Python made them, with its own CBOR, LMS and Merkle')
    print("// tree over hashlib: three keys of one level (LMS code 5, LM-OTS code 4), a service's, a governor's and an issuer's under two names.\n")
    records(names_of(rows))
    table('LOGS',rows,'// What the last record of a log fails, with the recorded and the judged rule where these differ, and nothing where the log is well\n// made; then the names of its records.')
    print('// The roots of no entry, the first one, the first two and all three of the log of three entries.')
    print('pub const ROOTS: &[&str] = &[')
    for k in range(4): print('    "%s",'%mth([eg,ea,eb][:k]).hex())
    print('];')
