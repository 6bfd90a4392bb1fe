#!/usr/bin/env python3
# modtimes.py INCDIR [N]: of a fresh `rt check`, whose INCDIR is crates/NAME/out/incremental, how long each module took (by when its checked file was written), the N slowest, and sums by function
import sys,os,re,collections
fs=[]
for r,d,f in os.walk(sys.argv[1]):
    for x in f:
        if x.endswith('.oantt') and '/records' not in r: fs.append((os.stat(os.path.join(r,x)).st_mtime_ns/1e9,x[:-6]))
fs.sort(); n=int(sys.argv[2]) if len(sys.argv)>2 else 25
ds=[(b[0]-a[0],b[1]) for a,b in zip(fs,fs[1:])]
print('total',round(fs[-1][0]-fs[0][0],1))
by=collections.Counter(); kind=collections.Counter()
for d,x in ds:
    m=re.match(r'Rattle-\w+-(?:proofs|specs)\.([^.]+)\.?(.*)',x)
    by[m.group(1) if m else x]+=d; kind[m.group(2) if m else x]+=d
for d,x in sorted(ds,reverse=True)[:n]: print(f'{d:6.2f} {x}')
print('-- by function'); 
for k,v in by.most_common(25): print(f'{v:6.2f} {k}')
print('-- by kind of module')
for k,v in kind.most_common(12): print(f'{v:6.2f} {k}')
