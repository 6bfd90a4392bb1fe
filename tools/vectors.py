#!/usr/bin/env python3
# vectors.py VECTORS ROWS OUT [BATCH]: writes theorems `found chunks ≡ answers`, BATCH chunks each, from the oracle's list of vectors.
# ROWS is crates/model/specs/Rows.antt, whose `use` lines, definitions up to the mark `-- ROWS` and `unfolding` line are taken over.
# OUT is put into a copy of crate model's specs/ (with its line in Lib.antt) and checked there; it isn't kept.
import sys,re
vec,rows,out=sys.argv[1:4]; batch=int(sys.argv[4]) if len(sys.argv)>4 else 10
cases=[];cur=None
for l in open(vec):
    l=l.rstrip('\n')
    if l.startswith('#') or not l: continue
    w=l.split()
    if w[0]=='case': cur={'name':w[1],'words':[],'lines':[],'kinds':[],'values':[],'frame':None}
    elif w[0]=='hex': cur['hex']=bytes.fromhex(''.join(w[1:]))
    elif w[0]=='words': cur['counts']=(int(w[1]),int(w[3]),int(w[5]))
    elif w[0]=='frame': cur['frame']=int(w[1])
    elif w[0]=='end': cases.append(cur)
    elif w[0][0]=='c': cur['kinds'].append(int(w[1])); cur['values'].append(int(w[2],16))
    else: cur['lines'].append(int(w[1])); cur['words'].append(int(w[2],16))
def lst(xs): return '('+' ∷ '.join([str(x) for x in xs]+['[]'])+')'
src=open(rows,encoding='utf8').read()
uses='\n'.join(re.findall(r'(?m)^use .*$',src)); unf=max(re.findall(r'(?m)^unfolding .*$',src),key=len).replace(' found','').replace(' more_rows','').replace(' sized','').replace(' nils','').replace(' numbered','').replace(' rows','')
head=src[src.index('abbrev weavelist'):src.index('-- ROWS')]
o=['-- Generated from the oracle\'s vectors.',uses,'',head]
for i in range(0,len(cases),batch):
    cs=cases[i:i+batch]
    o.append(f'chunks{i} : List (List ℕ)\nchunks{i} = '+'\n    ∷ '.join(lst(c['hex']) for c in cs)+'\n    ∷ []\n')
    o.append(f'answers{i} : List Summary\nanswers{i} = '+'\n    ∷ '.join(f"words {lst(c['words'])} {lst(c['lines'])} {lst(c['kinds'])} {lst(c['values'])} {c['counts'][2]} {c['frame']}" for c in cs)+'\n    ∷ []\n')
    o.append(f'-- {" ".join(c["name"] for c in cs)}\nbatch{i} : found chunks{i} ≡ answers{i}\n{unf} chunks{i} answers{i} found\nbatch{i} = refl\n')
open(out,'w',encoding='utf8').write('\n'.join(o))
print(len(cases),'chunks')
