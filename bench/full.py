"""The log whose statements have the most bytes, 536,870,912 in all, by the built programs: full.py SCITT SCITTD.

With forms.py it writes the file of a log of a policy and 127 statements of 4,194,304 bytes, and makes three more statements: one that fills the
log, one that has a byte more, and a small one. It compares what `scitt audit` says of the log with the first and with the second of these behind
it, and what the server answers to all three on the log without them: no room, admitted, no room. A line is printed for each.
"""
import http.client, os, socket, subprocess, sys, tempfile, time
sys.dont_write_bytecode=True
from forms import *
MOST=536_870_912
LONGEST=4_194_304
SEED,ID=b'\1'*32,b'\2'*16
service=Key(SEED,ID,3,10)
issuer=Key(b'\3'*32,b'\3'*16,3,10)
gov=Key(b'\4'*32,b'\4'*16)
def statement(key,q,iss,kid,sub,payload,ctype=None):
    p={1:-46,4:kid,15:{1:iss,2:sub}}
    if ctype: p[3]=ctype
    prot=enc(p)
    return tag(18,enc([prot,{},payload,key.sign(q,tbs(prot,payload))]))
# the issuer's statement of this many bytes
def of_length(q,length):
    other=len(statement(issuer,q,"acme",b"a","pkg",bytes(length)))-length
    made=statement(issuer,q,"acme",b"a","pkg",bytes(length-other))
    assert len(made)==length
    return made
policy=enc([1,1,[["gov",b"g",gov.pub]],[["acme",b"a",issuer.pub]],[[100,1,[0]]]])
genesis=statement(gov,0,"gov",b"g","policy",policy,"application/vnd.scitt-policy+cbor")
header=enc([0,1,"log",["gov",b"g",gov.pub],service.pub,[[6,3]],65536,64])
def record(body): return b'\1'+u32(len(body))+body
def protected(size): return enc({1:-46,4:H(service.pub),15:{1:"log"},395:1,-70001:size})
def more(peaks,leaf):
    peaks=peaks+[(1,leaf)]
    while len(peaks)>1 and peaks[-1][0]==peaks[-2][0]:
        (n,a),(_,b)=peaks[-2:]; peaks=peaks[:-2]+[(2*n,H(b'\1'+a+b))]
    return peaks
def root(peaks):
    r=peaks[-1][1]
    for _,p in peaks[-2::-1]: r=H(b'\1'+p+r)
    return r
# the Batch of a statement behind these peaks, and the peaks with it
def batch(peaks,n,rule,logged):
    leaf=enc([1,1000,rule,logged])
    peaks=more(peaks,H(b'\0'+leaf))
    return record(enc([2,[leaf],n,service.sign(n,tbs(protected(n+1),root(peaks)))])),peaks
failed=0
def must(what,wanted,got):
    global failed
    print('%s  %s'%('ok   ' if wanted==got else 'FAILS',what),flush=True)
    if wanted!=got: failed+=1; print('       wanted %r\n       got    %r'%(wanted,got))
def audit(path): return subprocess.run([sys.argv[1],'audit',path],stdout=subprocess.PIPE).stdout.decode()
def free_port():
    with socket.socket() as s: s.bind(('127.0.0.1',0)); return s.getsockname()[1]
def wait_for(port):
    for _ in range(1200):
        try: socket.create_connection(('127.0.0.1',port),1).close(); return
        except OSError: time.sleep(0.05)
    raise SystemExit('the server never listened')
with tempfile.TemporaryDirectory() as place:
    log=os.path.join(place,'log')
    with open(log,'wb') as f:
        peaks=[]
        f.write(record(header)+record(enc([1,64]))+record(enc([1,128]))+record(enc([1,192])))
        for n in range(128):
            body,peaks=batch(peaks,n,1 if n==0 else 100,genesis if n==0 else of_length(n-1,LONGEST))
            f.write(body)
        end=f.tell(); f.write(b'\0')
    left=MOST-len(genesis)-127*LONGEST
    fills,above,small=of_length(127,left),of_length(128,left+1),of_length(129,5000)
    with_fills,filled=batch(peaks,128,100,fills)
    with_above,_=batch(peaks,128,100,above)
    def behind(body):
        with open(log,'r+b') as f: f.truncate(end); f.seek(end); f.write(body+b'\0')
    behind(with_fills)
    must('the audit of a log with %d logged bytes'%MOST,'clean records 133 entries 129 rest 0 root %s\n'%root(filled).hex(),audit(log))
    behind(with_above)
    must('and with a byte more','bad record 132 Full recorded 0 found 0\n',audit(log))
    behind(b'')
    with open(os.path.join(place,'seed'),'wb') as f: f.write(SEED+ID)
    with open(os.path.join(place,'params'),'wb') as f: f.write(b'')
    port=free_port()
    server=subprocess.Popen([sys.argv[2],log,os.path.join(place,'seed'),os.path.join(place,'params'),'127.0.0.1:%d'%port,'1'],stdout=subprocess.DEVNULL)
    try:
        wait_for(port)
        link=http.client.HTTPConnection('127.0.0.1',port,timeout=100)
        def post(body):
            link.request('POST','/entries',body,{'Content-Type':'application/cose'})
            answer=link.getresponse(); return answer.status,answer.read(),answer.getheader('Scitt-Log-Size')
        def full(size,bytes): return 503,enc({1:[12,size,0,size,bytes],-1:"LogFull"}),str(size)
        must('a statement with a byte more is answered LogFull',full(128,MOST+1),post(above))
        answer=post(fills)
        must('the one that fills the log is admitted',(201,'129'),(answer[0],answer[2]))
        must('a small one is then answered LogFull',full(129,MOST+5000),post(small))
    finally:
        server.kill(); server.wait()
raise SystemExit(1 if failed else 0)
