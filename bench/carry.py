"""What a registration costs where the service's key goes on to its next tree: carry.py SCITTD.

It makes a policy and 1,030 statements with forms.py, starts the program SCITTD on a new log whose key has the levels h5w8 and h10w4, and
posts them one after another on one connection. The lower tree has 1,024 indices, so the entry of index 1,024 waits for the next one. It
prints how long the median answer took, the slowest but for that entry, and that entry.
"""
import http.client, os, socket, statistics, subprocess, sys, tempfile, time
sys.dont_write_bytecode=True
from forms import *
COUNT=1030
def wait_for(port):
    for _ in range(200):
        try: socket.create_connection(('127.0.0.1',port),1).close(); return
        except OSError: time.sleep(0.05)
    raise SystemExit('the server never listened')
def free_port():
    with socket.socket() as s: s.bind(('127.0.0.1',0)); return s.getsockname()[1]
gov=Key(b'\3'*32,b'\3'*16)
issuers=[Key(bytes([n])*32,bytes([n])*16,3,10) for n in (4,5)]
def statement(key,q,iss,kid,sub,payload,ctype=None):
    p={1:-46,4:kid,15:{1:iss,2:sub}}
    if ctype: p[3]=ctype
    prot=enc(p)
    return tag(18,enc([prot,{},payload,key.sign(q,tbs(prot,payload))]))
names=['acme','bolt']
policy=enc([1,1,[["gov",b"g",gov.pub]],[[names[n],b"k",issuers[n].pub] for n in (0,1)],[[100,1,[0]]]])
bodies=[statement(gov,0,"gov",b"g","policy",policy,"application/vnd.scitt-policy+cbor")]
bodies+=[statement(issuers[n//1024],n%1024,names[n//1024],b"k","pkg:%d"%n,b"x") for n in range(COUNT-1)]
with tempfile.TemporaryDirectory() as place:
    with open(os.path.join(place,'seed'),'wb') as f: f.write(b'\7'*48)
    with open(os.path.join(place,'params'),'wb') as f: f.write(enc([1,"log",["gov",b"g",gov.pub],[[5,4],[6,3]],65536,64]))
    port=free_port()
    server=subprocess.Popen([sys.argv[1],os.path.join(place,'log'),os.path.join(place,'seed'),os.path.join(place,'params'),'127.0.0.1:%d'%port,'1'],stdout=subprocess.DEVNULL)
    try:
        wait_for(port)
        times=[]; link=None
        for n,body in enumerate(bodies):
            if n%900==0:
                if link: link.close()
                link=http.client.HTTPConnection('127.0.0.1',port,timeout=60); link.connect()
            start=time.perf_counter()
            link.request('POST','/entries',body,{'Content-Type':'application/cose'})
            answer=link.getresponse(); answer.read()
            times.append(time.perf_counter()-start)
            if answer.status!=201: raise SystemExit('entry %d: status %d'%(n,answer.status))
        others=times[:1024]+times[1025:]
        print('%d entries: median %.2f ms, slowest %.2f ms; the entry of index 1024 %.2f ms'%(COUNT,1000*statistics.median(others),1000*max(others),1000*times[1024]))
    finally:
        server.kill(); server.wait()
