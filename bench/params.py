"""Parameter files of logs, `[1, name, [iss, kid, key], levels, max_entries, block]`, and what a reader says of each, by the CBOR of forms.py.

It prints a table for tests: the bytes in hexadecimal, and what they are.
"""
import sys
sys.dont_write_bytecode=True
from forms import *
KEY=bytes(range(60))
GOVERNOR=['gov',b'\1',KEY]
def file(form=1,name='log',governor=GOVERNOR,levels=[[5,4]],most=16,block=4): return [form,name,governor,levels,most,block]
def said(f):
    name,(iss,kid,key),levels=f[1],f[2],f[3]
    return 'name=%s iss=%s kid=%s key=%s levels=%s entries=%d block=%d'%(name,iss,kid.hex(),key.hex(),' '.join('%d.%d'%tuple(l) for l in levels),f[4],f[5])
rows=[]
def good(**parts): f=file(**parts); rows.append((enc(f),said(f)))
def bad(**parts): rows.append((enc(file(**parts)),'BadParams'))
good()
good(name='',governor=['',b'',KEY],most=0,block=0)
good(name='g\u00e9n\u00e9rique',levels=[[6,1],[5,2],[6,3]],most=2**32-1,block=2**32-1)
rows.append((enc(1),'BadParams')); rows.append((enc([]),'BadParams'))
rows.append((enc(file()[:5]),'BadParams')); rows.append((enc(file()+[0]),'BadParams'))
bad(form=0); bad(form=2); bad(form=b'\1')
bad(name=b'log')
bad(governor=GOVERNOR[:2]); bad(governor=GOVERNOR+[0]); bad(governor=[b'gov',b'\1',KEY]); bad(governor=['gov','a',KEY])
bad(governor=['gov',b'\1',KEY[:59]]); bad(governor=['gov',b'\1',KEY+b'\0']); bad(governor='gov')
bad(levels=[]); bad(levels=[[5,4]]*4); bad(levels=[[5]]); bad(levels=[[5,4,0]]); bad(levels=[5,4]); bad(levels=5)
bad(levels=[[4,4]]); bad(levels=[[7,4]]); bad(levels=[[10,4]]); bad(levels=[[5,0]]); bad(levels=[[5,5]]); bad(levels=[[2**32+5,4]]); bad(levels=[[5,2**32+4]])
bad(most=2**32); bad(block=2**32); bad(most=-1); bad(block='4')
whole=enc(file())
rows.append((whole[:-1],'Cbor Truncated at %d'%(len(whole)-1)))
rows.append((whole+b'\0','Cbor Trailing at %d'%len(whole)))
rows.append((b'','Cbor Truncated at 0'))
rows.append((b'\x86\x18\1','Cbor NotShortest at 1'))
print('// Parameter files in hexadecimal and what they are, by bench/params.py, a program of its own in Python with its own CBOR.\n')
print('pub const PARAMS: &[&str] = &[')
for bytes_,what in rows: print('    "%s|%s",'%(bytes_.hex(),what))
print('];')
