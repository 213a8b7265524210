"""What a registration and a receipt cost as a log grows: growth.py SCITTD [COUNT].

It starts the program SCITTD on a new log in /dev/shm, so that no disk is waited for, with a service key of two levels of height 10, and posts
COUNT statements (10,200 without a word) of as many issuers as needed, each with a subject of its own, on connections of 900 requests. At each
of the sizes 0, 1,000, 10,000 and 65,000 that the log comes to, it prints the median time of the next 200 registrations, of 200 receipts of
entries spread over the log, and the server's memory. Then it ends the server, starts it again on the same log, and prints how long it took
until the server listened. The policy denies nothing and asks one question of earlier entries for each statement. Keys and signatures are
made beforehand (forms.py), which takes some minutes for the largest log.
"""
import http.client, os, socket, statistics, subprocess, sys, tempfile, time
sys.dont_write_bytecode=True
from forms import *
SIZES=(0,1000,10000,65000)
WINDOW=200
count=int(sys.argv[2]) if len(sys.argv)>2 else 10200
def wait_for(port):
    while True:
        try: socket.create_connection(('127.0.0.1',port),1).close(); return
        except OSError: time.sleep(0.02)
def free_port():
    with socket.socket() as s: s.bind(('127.0.0.1',0)); return s.getsockname()[1]
def memory(server):
    with open('/proc/%d/status'%server.pid) as f: return next(int(line.split()[1]) for line in f if line.startswith('VmRSS'))
gov=Key(b'\3'*32,b'\3'*16)
keys={}
def issuer(n):
    if n not in keys: keys[n]=Key(H(b'issuer'+u32(n)),H(b'id'+u32(n))[:16],3,10)
    return keys[n]
def statement(key,q,iss,kid,sub,payload,ctype=None):
    p={1:-46,4:kid,15:{1:iss,2:sub}}
    if ctype: p[3]=ctype
    prot=enc(p)
    return tag(18,enc([prot,{},payload,key.sign(q,tbs(prot,payload))]))
issuers=-(-count//1024)
names=['maker-%d'%n for n in range(issuers)]
# deny where the subject has an entry of the issuer `nobody`; else admit
policy=enc([1,1,[["gov",b"g",gov.pub]],[[names[n],b"k",issuer(n).pub] for n in range(issuers)],[[100,0,[9,"nobody"]],[101,1,[0]]]])
first=statement(gov,0,"gov",b"g","policy",policy,"application/vnd.scitt-policy+cbor")
with tempfile.TemporaryDirectory(dir='/dev/shm') as place:
    with open(os.path.join(place,'seed'),'wb') as f: f.write(b'\7'*48)
    with open(os.path.join(place,'params'),'wb') as f: f.write(enc([1,"log",["gov",b"g",gov.pub],[[6,3],[6,3]],65536,64]))
    def start():
        port=free_port()
        return port,subprocess.Popen([sys.argv[1],os.path.join(place,'log'),os.path.join(place,'seed'),os.path.join(place,'params'),'127.0.0.1:%d'%port,'1'],stdout=subprocess.DEVNULL)
    port,server=start()
    wait_for(port)
    link=None; asked=0
    def ask(method,path,body=None):
        global link,asked
        if asked%900==0:
            if link: link.close()
            link=http.client.HTTPConnection('127.0.0.1',port,timeout=600); link.connect()
        asked+=1
        begun=time.perf_counter()
        link.request(method,path,body,{'Content-Type':'application/cose'} if body else {})
        answer=link.getresponse(); answer.read()
        return answer.status,time.perf_counter()-begun
    try:
        status,_=ask('POST','/entries',first)
        if status!=201: raise SystemExit('the policy: status %d'%status)
        times=[]
        for n in range(count):
            if n in SIZES: before=memory(server); times=[]
            status,took=ask('POST','/entries',statement(issuer(n//1024),n%1024,names[n//1024],b"k","pkg:%d"%n,b"x"))
            if status!=201: raise SystemExit('statement %d: status %d'%(n,status))
            times.append(took)
            size=n+1-WINDOW
            if size in SIZES:
                reads=[]
                for k in range(WINDOW):
                    status,took=ask('GET','/entries/%d'%(k*(n+1)//WINDOW))
                    if status!=200: raise SystemExit('receipt: status %d'%status)
                    reads.append(took)
                print('%d entries: a registration %.2f ms, a receipt %.2f ms, memory %d KiB'%(size,1000*statistics.median(times),1000*statistics.median(reads),before),flush=True)
        link.close(); server.kill(); server.wait()
        begun=time.perf_counter()
        port,server=start()
        wait_for(port)
        print('started again on %d entries, %d bytes: %.1f s, memory %d KiB'%(count+1,os.path.getsize(os.path.join(place,'log')),time.perf_counter()-begun,memory(server)))
    finally:
        server.kill(); server.wait()
