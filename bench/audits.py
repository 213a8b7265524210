"""Journals, and what an audit says of each, from the rules of docs/profile/journal.md and docs/profile/log.md.

It prints tables for tests. With a folder it writes the journals there instead, each as a file, and prints the name of each with the status
and the line of `scitt audit`. The records are those of logs.py, with keys of LM-OTS code 3.
"""
import os, sys
sys.dont_write_bytecode=True
import forms
forms.CODE=3
from forms import *
from logs import R,eg,ea,eb
entries=[eg,ea,eb]
def framed(body): return b'\1'+u32(len(body))+body
pieces={n:framed(b) for n,b in R.items()}
pieces['shut']=b'\0'
pieces['rest']=b'\0\xff\xff\xff'
pieces['other']=b'\3\1'
pieces['cut']=framed(b'\x82\1\4')
pieces['early']=b'\1\0\0\0'
pieces['long']=b'\1\xff\xff\xff\xff\0'
root=[mth(entries[:k]).hex() for k in range(4)]
def clean(records,n,rest): return 'clean %d %d %d %s'%(records,n,rest,root[n])
def bad(n,why,recorded=0,found=0): return 'bad %d %s %d %d'%(n,why,recorded,found)
def size(names): return sum(len(pieces[n]) for n in names.split())
def short(before): return 'short %d'%size(before)
whole='header reserve4 genesis acme bolt'
files=[
 (clean(1,0,0),'header shut'),
 (clean(1,0,3),'header rest'),
 (clean(2,0,1),'header reserve4 other'),
 (clean(1,0,size('reserve4')),'header shut reserve4'),
 (clean(3,1,0),'header reserve1 genesis shut'),
 (clean(5,3,3),whole+' rest'),
 (bad(1,'Form'),'header trailing shut'),
 (bad(1,'Order'),'header header shut'),
 (bad(0,'Header'),'none shut'),
 (bad(1,'Reserve'),'header reserve5 shut'),
 (bad(2,'EntryForm'),'header reserve4 nostatement shut'),
 (bad(3,'Moment'),'header reserve4 genesis late shut'),
 (bad(3,'Verdict',101,100),'header reserve4 genesis rule shut'),
 (bad(3,'Verdict',1,0),'header reserve4 genesis again shut'),
 (bad(3,'Full'),'one reserve4 genesis unsigned shut'),
 (bad(1,'Index'),'header genesis shut'),
 (bad(3,'Signature'),'header reserve4 genesis changed shut'),
 (bad(0,'Order'),'reserve4 header header none shut'),
 (bad(1,'Order'),'header header reserve5 none cut'),
 (bad(1,'Reserve'),'header reserve5 late rule long'),
 (short(''),'cut'),
 (short('header'),'header cut'),
 (short('header'),'header early'),
 (short('header reserve4'),'header reserve4 long'),
 ('no log',''),
 ('no log','shut'),
 ('no log','shut header'),
 ('no log','other header shut'),
 ('no log','early'),
]
beside=[
 (1,root[0],'old size 0','header shut'),
 (0,root[0],clean(1,0,0),'header shut'),
 (0,root[1],'old root '+root[0],'header shut'),
 (0,root[0],clean(5,3,0),whole+' shut'),
 (1,root[1],clean(5,3,0),whole+' shut'),
 (2,root[2],clean(5,3,0),whole+' shut'),
 (3,root[3],clean(5,3,0),whole+' shut'),
 (1,root[3],'old root '+root[1],whole+' shut'),
 (2,root[3],'old root '+root[2],whole+' shut'),
 (3,root[2],'old root '+root[3],whole+' shut'),
 (4,root[3],'old size 3',whole+' shut'),
 (2**32-1,root[3],'old size 3',whole+' shut'),
 (9,root[1],bad(1,'Order'),'header header shut'),
 (0,root[1],short('header'),'header cut'),
 (1,root[1],'no log','shut'),
]
def printed(said):
    w=said.split()
    if w[0]=='clean': return '0 clean records %s entries %s rest %s root %s'%tuple(w[1:])
    if w[0]=='bad': return '1 bad record %s %s recorded %s found %s'%tuple(w[1:])
    return '1 refused '+said
if len(sys.argv)>1:
    for n,(said,names) in enumerate(files):
        with open(os.path.join(sys.argv[1],'log%d'%n),'wb') as f: f.write(b''.join(pieces[x] for x in names.split()))
        print('log%d %s'%(n,printed(said)))
    sys.exit()
small='header reserve4 genesis'
lengths=[(0,'no log'),(6,short('')),(size('header')+1,short('header')),(size('header reserve4')+1,short('header reserve4')),(size(small)+1,clean(3,1,0))]
two='header reserve4 genesis acme'
end=size(two)
# one bit of each byte is changed, the bit p mod 8 at place p; here the journal stays clean: in the limits of the header, which nothing
# signs, and at the gates, each of which ends the journal there where it isn't open
def ended(before,records,n): return (size(before),clean(records,n,end-size(before)))
changes=[(size('header')-2,clean(4,2,0)),(size('header')-1,clean(4,2,0)),ended('header',1,0),ended('header reserve4',2,0),ended(small,3,1),(end,clean(4,2,0))]
used=[]
for names in [f[1] for f in files]+[b[3] for b in beside]+[small,two]:
    for n in names.split():
        if n not in used: used.append(n)
def row(names,count): return '[%s]'%', '.join('"%s"'%n for n in (names.split()+['']*count)[:count])
print('// Pieces of journals in hexadecimal, each behind its name: records with their gates and lengths, and ends. A program of its own in Python')
print('// made them, with its own CBOR, LMS and Merkle tree over hashlib: three keys of one level (LMS code 5, LM-OTS code 3).\n')
print('pub const PIECES: &[&str] = &[')
for n in used: print('    "%s|%s",'%(n,pieces[n].hex()))
print('];\n')
print('// What an audit says of a journal, and its pieces.')
print('pub const FILES: &[(&str, [&str; 6])] = &[')
for said,names in files: print('    ("%s", %s),'%(said,row(names,6)))
print('];\n')
print('// An older size and root, what an audit says beside them of a journal, and its pieces.')
print('pub const BESIDE: &[(u32, &str, &str, [&str; 6])] = &[')
for n,r,said,names in beside: print('    (%d, "%s", "%s", %s),'%(n,r,said,row(names,6)))
print('];\n')
print('// What an audit says of the first bytes of a small journal: of so many and more, up to the next line.')
print('pub const SMALL: [&str; 6] = %s;\n'%row(small+' shut',6))
print('pub const LENGTHS: &[(usize, &str)] = &[')
for n,said in lengths: print('    (%d, "%s"),'%(n,said))
print('];\n')
print('// A journal of two entries, and what an audit says of it.')
print('pub const TWO: [&str; 6] = %s;\n'%row(two+' shut',6))
print('pub const TWO_SAID: &str = "%s";\n'%clean(4,2,0))
print('// Where it is clean still with the bit p mod 8 of the byte at the place p changed, and what an audit says then: in the limits of the')
print('// header, which nothing signs, and at the gates, where it ends.')
print('pub const STILL_CLEAN: [(usize, &str); %d] = ['%len(changes))
for p,said in changes: print('    (%d, "%s"),'%(p,said))
print('];')
