#!/usr/bin/env python3
# unfold.py CRATESDIR CRATE : prints the use lines and the unfolding line that bring in every unfoldable definition of the crates below CRATE's rows
import sys,re,glob,os
root,crate=sys.argv[1:3]
deps=['refusals','buffers','opcodes','instructions','folding','constants','cursor','ast','nodes','chunk','model']
uses=[];names=[]
skip=set(sys.argv[3].split(',')) if len(sys.argv)>3 else set()
for c in deps:
    for p in sorted(glob.glob(f'{root}/{c}/specs/*.antt')):
        mod=os.path.basename(p)[:-5]
        if mod in('Lib','Rows') or mod.startswith('Rows'): continue
        s=open(p).read()
        ns=re.findall(r'(?m)^ *unfoldable (?:abbrev )?pub (\S+) :',s)
        for m in re.finditer(r'(?ms)^( *)unfoldable mutual\n(.*?)(?=^\1\S|\Z)',s):
            ns+=re.findall(r'(?m)^'+m.group(1)+r'  pub (\S+) :',m.group(2))
        if not ns: continue
        pre=f'Rattle.{c}.specs.{mod}'
        out=[]
        for n in ns:
            if n in skip: continue
            if n in names:
                al=f'{c}-{n}'; out.append(f'{n} as {al}'); names.append(al)
            else: out.append(n); names.append(n)
        uses.append(f'use {pre}.{{{", ".join(out)}}}')
ieee='span, climb, size, odd, units, round, neg, sum, add, sub, mul, div, lt, eq, le, ne, of_int, of_fields, of_bits, nan_bits, to_bits, is_nan'
uses.append('use Rattle.std.specs.Float.Ieee.{'+ieee+'}')
names+=ieee.split(', ')
print('\n'.join(uses)); print('unfolding '+' '.join(names))
