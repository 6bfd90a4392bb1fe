#!/usr/bin/env python3
# replay.py ORACLE HARNESS VECTORS CRATES: writes stdin and stdout of the programs replay_test and weavelist_long below the folder CRATES.
# ORACLE: the program of the oracle. HARNESS: that of harness/, which prints the bytes of the pools, as the oracle doesn't. VECTORS: the oracle's list
# of chunks. Nothing comes from our program. Of an accepted chunk words, lines, constants and frame are those of the oracle with document 01's
# differences, which must be the unchanged Rust's too unless the case is marked as meeting a difference; the pool is the unchanged Rust's. The form is
# checked here as document 01 says. Refusals 10 to 13 are given with their case, and must have their cause. The form of stdin: see replay_test.
# Imported, it builds chunks from expressions and finds the places of the nodes in a chunk (form), for rows and tests.
import sys,struct,subprocess,tempfile

# ---- chunks from expressions
def line(l): return b'' if l is None else struct.pack('<I',l)
def nd(k,bits,fields,l=None): return bytes([k,bits|(0 if l is None else 1)])+line(l)+fields
def nil(l=None): return nd(0,0,b'',l)
def true(l=None): return nd(1,0,b'',l)
def false(l=None): return nd(2,0,b'',l)
def num(x,l=None): return nd(3,2,struct.pack('<d',x),l)
def numb(b,l=None): return nd(3,2,struct.pack('<Q',b),l)
def txt(s): s=s.encode() if isinstance(s,str) else s; return struct.pack('<H',len(s))+s
def st(s,l=None): return nd(4,4,txt(s),l)
def va(l=None): return nd(5,0,b'',l)
def name(s,l=None): return nd(6,4,txt(s),l)
OPS='+ - * / % ^ .. < <= > >= == ~= and or'.split()
def bi(op,a,b,l=None): return nd(7,8,bytes([OPS.index(op)]),l)+a+b
def un(op,a,l=None): return nd(8,8,bytes([['-','not','#'].index(op)]),l)+a
def idx(a,b,l=None): return nd(9,0,b'',l)+a+b
def fld(a,s,l=None): return nd(10,4,txt(s),l)+a
def meth(a,s,args=(),l=None): return nd(11,20,txt(s)+bytes([len(args)]),l)+a+b''.join(args)
def call(a,args=(),l=None): return nd(12,16,bytes([len(args)]),l)+a+b''.join(args)
def par(a,l=None): return nd(13,0,b'',l)+a
def head(formulas,locals=None,varargs=False):
    h=bytes([(locals is not None)|2*varargs])
    if locals is not None: h+=bytes([len(locals)])+b''.join(txt(n) for n in locals)
    return h+bytes([formulas])
def chunk(fs,locals=None,varargs=False): return head(len(fs),locals,varargs)+b''.join(fs)

# ---- the form, by document 01: the places of the kind bytes; or the number of the refusal
class Refused(Exception): pass
NEEDS={3:2,4:4,6:4,7:8,8:8,10:4,11:20,12:16}
CHILDREN={7:2,8:1,9:2,10:1,11:1,12:1,13:1}
def form(b):
    at=0; found=[]
    def take(n):
        nonlocal at
        if len(b)-at<n: raise Refused(2)
        at+=n
        return int.from_bytes(b[at-n:at],'little')
    def expression(nesting):
        if nesting>200: raise Refused(5)
        found.append(at)
        kind=take(1)
        if kind>13: raise Refused(4)
        bits=take(1); children=CHILDREN.get(kind,0)
        if bits&~1!=NEEDS.get(kind,0): raise Refused(3)
        if bits&1: take(4)
        if bits&2: take(8)
        if bits&4: take(take(2))
        if bits&8 and take(1)>(14 if kind==7 else 2): raise Refused(4)
        if bits&16: children+=take(1)
        if kind==5 and not varargs: raise Refused(7)
        for _ in range(children): expression(nesting+1)
    try:
        if len(b)>1048576: raise Refused(1)
        bits=take(1); varargs=bits&2
        if bits>3: raise Refused(3)
        if bits&1:
            locals=take(1)
            if locals>200: raise Refused(6)
            for _ in range(locals): take(take(2))
        for _ in range(take(1)): expression(1)
        if at<len(b): raise Refused(8)
    except Refused as r: return r.args[0]
    return found

# ---- cases: a label; the chunk, in pieces (times, bytes); how many numbers of code, lines, kinds, values, pool and scratch are lent; and what is
# known of the answer beside the oracle's: that it meets a difference, the number of its refusal, what document 01 says of its words and constants
MOST=(131072,131072,4096,2048,65536,131072)
WEAVELIST=(8192,8192,2048,2048,32768,16384)
LIBRARY=(8192,8192,2048,2048,4096,8192)
LONGEST=(131072,131072,2048,2048,4096,131072)
cases=[]
def case(label,pieces,lent=LIBRARY,**known):
    if isinstance(pieces,bytes): pieces=[(1,pieces)]
    assert all(n<=most for n,most in zip(lent,MOST)),label
    cases.append((label,pieces,lent,known))
def whole(pieces): return b''.join(n*b for n,b in pieces)
def fields(w): return w&63,w>>6&255,w>>23,w>>14&511

def list_of_the_oracle(vectors):
    for l in open(vectors):
        if l.startswith('case '): label=l[5:-1]
        if l.startswith('hex '): case(label,bytes.fromhex(l[4:]),WEAVELIST,refused=None)

def numbered():
    x=name('x')
    case('P1 1 + x',chunk([bi('+',num(1),x)]),says=lambda w,c: w==[0x5,0x8080000c,0x100001e] and c==[(4,1),(3,0x3ff0<<48)])
    case('P2 nil',chunk([nil()]),says=lambda w,c: len(w)==1)
    def nils(n,*more,varargs=False): return [(1,head(n+len(more),varargs=varargs)),(n,nil()),(1,b''.join(more))]
    case('P3 250 nils',nils(250),says=lambda w,c: len(w)==1 and fields(w[0])[2]==251)
    case('P4 251 nils',nils(251),refused=10)
    case('P4 with a scratch of 250',nils(251),LIBRARY[:5]+(250,),refused=9)
    case('P4 with a scratch of 251',nils(251),LIBRARY[:5]+(251,),refused=10)
    case('P5 ((1 or false) and true) or false',chunk([bi('or',par(bi('and',par(bi('or',num(1),false())),true())),false())]),differs=True,
        says=lambda w,c: len(w)==10)
    case('P6 1 / 0',chunk([bi('/',num(1),num(0))]),says=lambda w,c: fields(w[0])==(15,0,257,256))
    case('P7 7 % -3',chunk([bi('%',num(7),un('-',num(3)))]),says=lambda w,c: c==[(3,0xc000<<48)])
    case('P8 5 % infinity',chunk([bi('%',num(5),num(float('inf')))]),says=lambda w,c: fields(w[0])[0]==16)
    case('P9 0, then -0',chunk([num(0),un('-',num(0))]),says=lambda w,c: c==[(3,0),(3,1<<63)])
    case('P10 a .. b .. c',chunk([bi('..',name('a'),bi('..',name('b'),name('c')))]),says=lambda w,c: len(w)==5 and fields(w[3])==(21,0,0,2))
    case('P11 249 nils, then f(...)',nils(249,call(name('f'),[va()]),varargs=True),refused=10,differs=True)
    case('P12 248 nils, then f(...)',nils(248,call(name('f'),[va()]),varargs=True))
    # those that are only run
    def minus(n): return [(1,head(1)),(n,un('-',b'')),(1,x)]
    case('nesting 200: x under 199 minus signs',minus(199))
    case('nesting 201: x under 200 minus signs',minus(200),refused=5)
    def locals(n): return [(1,b'\x01'+bytes([n])),(n,txt('a')),(1,b'\x01'+name('a'))]
    case('200 locals a, formula a',locals(200),says=lambda w,c: fields(w[0])==(0,200,199,0))
    case('201 locals a, formula a',locals(201),refused=6)
    case('a negated NaN numeral',chunk([un('-',numb(0x7ff8<<48))]),says=lambda w,c: fields(w[1])[0]==18 and fields(w[1])[2]<256)

# formulas before and behind two that use g and n numbers, which is one constant more
def after(n,formula,*before):
    def sum(a,b): return [(b-a,bi('+',b'',b'')),(1,name('g')+b''.join(numb((0x3ff0<<48)+i) for i in range(a,b)))]
    return [(1,head(len(before)+3)+b''.join(before))]+sum(0,127)+sum(127,n)+[(1,formula)]

def at_256_constants():
    x,g=name('x'),name('g')
    case('f(1.5 + x) after 256 constants',after(255,call(name('f'),[bi('+',num(1.5),x)])),differs=True,pool=b'gfx',
        says=lambda w,c: fields(w[-2])[0]==28 and fields(w[-2])[2]==2)
    case('1.5 == (a < b) after 256 constants',after(255,bi('==',num(1.5),par(bi('<',name('a'),name('b'))))),differs=True,pool=b'gab')
    for n in (253,254,255):
        used=f'numbers used before: {n}, and g: '
        case(used+'g + 2.5',after(n,bi('+',g,num(2.5))))
        case(used+'g == true',after(n,bi('==',g,true())))
        case(used+'g == nil',after(n,bi('==',g,nil())))
        case(used+'g == true after g == true',after(n,bi('==',g,true()),bi('==',g,true())))

# f("ab", 1.5) takes 5 words, 3 constants, 3 bytes of text and 4 places. One less of each; then several: 11 is tested before 12, f is listed before a word
# is emitted, and 9 comes before both
def at_the_buffers_ends():
    b=chunk([call(name('f'),[st('ab'),num(1.5)])])
    case('f("ab", 1.5), exactly enough of each buffer',b,(5,5,3,3,3,4),says=lambda w,c: len(w)==5 and len(c)==3)
    case('one word too few',b,(4,5,3,3,3,4),refused=13)
    case('one line too few',b,(5,4,3,3,3,4),refused=13)
    case('one kind too few',b,(5,5,2,3,3,4),refused=11)
    case('one value too few',b,(5,5,3,2,3,4),refused=11)
    case('one byte of text too few',b,(5,5,3,3,2,4),refused=12)
    case('one place too few',b,(5,5,3,3,3,3),refused=9)
    case('no kind and no room for "ab"',b,(5,5,1,3,2,4),refused=11)
    case('places alone',b,(0,0,0,0,0,4),refused=11)
    case('nothing',b,(0,0,0,0,0,0),refused=9)

# sums of n calls of f with 200 arguments x take 203 n - 1 words, and the last call two more than its arguments; then Return
def longest():
    def calls(n): return [(n-1,bi('+',b'',b'')),(n,call(name('f'),[name('x')]*200))]
    def words(arguments): return [(1,head(5))]+3*calls(199)+calls(48)+[(1,call(name('f'),[name('x')]*arguments))]
    case('131,071 words, places for 131,072',words(137),LONGEST,says=lambda w,c: len(w)==131071)
    case('one word more',words(138),LONGEST,refused=13,words=131072)

# the form check at the limits of document 01
def forms():
    def formed(label,pieces,scratch=256,**known): case(label,pieces,WEAVELIST[:5]+(scratch,),**known)
    def nested(label,n,inside,**known): formed(label,[(1,head(1)),(n,par(b'')),(1,inside)],**known)
    nested('nil in 199 parentheses',199,nil())
    nested('nil in 200 parentheses',200,nil(),refused=5)
    nested('199 parentheses opened',199,b'',refused=2)
    nested('200 parentheses opened',200,b'',refused=5)
    def named(label,n,name,**known): formed(label,[(1,bytes([1,n])),(n,txt(name)),(1,b'\x01'+nil())],**known)
    named('200 names',200,'a')
    named('201 names',201,'a',refused=6)
    named('200 empty names',200,'')
    named('201 empty names',201,'',refused=6)
    sum=chunk([bi('+',num(1),name('x'))])
    formed('1 + x',sum)
    for n in range(len(sum)): formed(f'1 + x, its first {n}',sum[:n],refused=2)
    formed('1 + x and a byte',sum+b'\0',refused=8)
    object=idx(fld(par(st('s')),'y'),num(1))
    formed('every kind',chunk([call(name('f'),[meth(object,'m',[nil(),true()]),bi('or',un('#',false()),va())],5)],varargs=True))
    # header: "3 where map bits 2 to 7 stand". Node: "3 where the map has a bit the kind doesn't take or lacks one it needs", and only then "2 inside a field"
    formed('header bit 2, and no byte',b'\x04',refused=3)
    formed('header bit 7',b'\x80\x00',refused=3)
    formed("nil with a number's bit",head(1)+b'\x00\x02',refused=3)
    formed('nil with bit 5',head(1)+b'\x00\x20',refused=3)
    formed('number without its bit',head(1)+b'\x03\x00',refused=3)
    # "4 for an unknown kind" (they end at 13), and only then "2 at a missing map byte"
    formed('kind 14',head(1)+b'\x0e\x00',refused=4)
    formed('kind 255',head(1)+b'\xff\x00',refused=4)
    formed('kind 255, and no byte',head(1)+b'\xff',refused=4)
    # "4 for an unknown operator": `BinOp` is 0 to 14 and `UnOp` 0 to 2; the operands stand there
    formed('binary operator 15',head(1)+b'\x07\x08\x0f'+nil()+nil(),refused=4)
    formed('unary operator 3',head(1)+b'\x08\x08\x03'+nil(),refused=4)
    # "2 inside a field", and only then "7 for a vararg in a chunk without varargs"
    formed('vararg without varargs',chunk([va()]),refused=7)
    formed('vararg without varargs, its line cut',chunk([va(1)])[:-1],refused=2)
    formed('vararg with varargs',chunk([va()],varargs=True))
    formed('1 + x, scratch 0',sum,0,refused=9)
    formed('1 + x, scratch 2',sum,2,refused=9)
    formed('1 + x, scratch 3',sum,3)
    # zeros: no formula, and bytes behind that
    formed('no byte',b'',refused=2)
    formed('2 zeros',b'\0\0')
    formed('1048576 zeros',[(1048576,b'\0')],refused=8)
    formed('1048577 zeros',[(1048577,b'\0')],refused=1)

# two formulas, the same name of 32,763 bytes: an equal text is listed once, and so fits the pool
def full(locals): return [(1,head(2,locals)),(1,name('x'*32763)[:4]),(32763,b'x'),(1,name('x'*32763)[:4]),(32763,b'x')]
def inputs_of_weavelist():
    assert len(whole(full(None)))==65536
    case('an input of 65,536 bytes',full(None),WEAVELIST)
    # kinds end at 13; the last byte stays unknown if more are given a meaning
    case('an unknown kind',chunk([bytes([255,0])]),WEAVELIST,refused=4)
# the same with a count byte of no locals: only its length is wrong
def write_long(crates):
    b=whole(full([]))
    assert len(b)==65537 and isinstance(form(b),list)
    open(crates+'/weavelist_long/stdin','wb').write(b)
    open(crates+'/weavelist_long/stdout','w').write('refused 1\n')

# ---- what must be printed

# in order: 7 times what was before and the number, modulo the prime 2^61 - 1, so that a number of 32 bits that is wrong, or has changed places, shows
def total(numbers):
    s=0
    for n in numbers: s=(s*7+n)%(2**61-1)
    return f'{s:016x}'
# a value by halves, the lower first
def halves(values): return [h for v in values for h in (v%2**32,v>>32)]
def told(numbers): return f'{" "+total(numbers) if numbers else ""}, zeros'
def last(places): return f', last place {places[-1]}' if places else ''

# the oracle's answers, and the pools
def ask(oracle,harness,chunks):
    lines=''.join(c.hex()+'\n' for c in chunks)
    def run(*command,**options): return subprocess.run(command,check=True,stdout=subprocess.PIPE,text=True,**options).stdout
    answers=[[a.split('\n')[:-1] for a in run(oracle,*variant,'hex',input=lines).split('end\n')[:-1]] for variant in ((),('differences',))]
    with tempfile.NamedTemporaryFile('w') as f:
        f.writelines('hex '+l+'\n' for l in lines.split('\n')[:-1]); f.flush()
        pools=run(harness,'pools',f.name).split('\n')[:-1]
    assert len(answers[0])==len(answers[1])==len(pools)==len(chunks)
    return zip(*answers,pools)

nothing='words, zeros; lines, zeros; kinds, zeros; values, zeros; pool, zeros; places, zeros'
def printed(label,b,lent,known,unchanged,answer,pool):
    places=form(b); refused=known.get('refused')
    if isinstance(places,int):
        assert refused==places,label
        return [label,f'form: refused {places}; places, zeros',f'refused {places}',nothing]
    fit=places[:lent[5]]
    o=[label,f'form: nodes {len(places)}{last(fit)}; places{told(fit)}']
    assert (answer!=unchanged)==known.get('differs',False),label
    accepted=answer[0].startswith('words ')
    if accepted:
        words,constants,text=(int(n) for n in answer[0].split()[1::2])
        room=words<=min(lent[0],lent[1],131071),constants<=min(lent[2:4]),text<=lent[4]
    if refused is not None:
        # 9 and 10 have one cause; of several buffers that are too short the case says which is met first
        cause={9:len(places)>lent[5]}
        if not cause[9]: cause.update({10:answer==['error function or expression too complex'],11:accepted and not room[1],12:accepted and not room[2],13:accepted and not room[0]})
        assert cause.get(refused),(label,refused,cause)
        assert words==known['words'] if 'words' in known else True,label
        return o+[f'refused {refused}',nothing]
    assert accepted and all(room) and len(places)<=lent[5],(label,answer[0])
    code=[l.split() for l in answer[1:words+1]]; entries=[l.split() for l in answer[words+1:-1]]
    code,lines=[int(w,16) for _,_,w in code],[int(n) for _,n,_ in code]
    kinds,values=[int(k) for _,k,_ in entries],[int(v,16) for _,_,v in entries]
    pool=bytes.fromhex(pool)
    assert len(code)==words and len(kinds)==constants and len(pool)==text,label
    # the unchanged Rust's pool, where that departs, must be what the case says
    if known.get('differs'): assert pool==known.get('pool',b''),label
    assert known.get('says',lambda w,c: True)(code,list(zip(kinds,values))),label
    listing=answer[:-1]
    o+=listing if sum(len(l)+1 for l in listing)<=65536 else ['too long a list: '+answer[0]]
    return o+[f'{answer[-1]}, places {len(places)}{last(places)}, pool {pool[:64].hex()}',
        f'words{told(code)}; lines{told(lines)}; kinds{told(kinds)}; values{told(halves(values))}; pool{told(pool)}; places{told(places)}']

def record(label,pieces,lent):
    return txt(label)+struct.pack('<6IH',*lent,len(pieces))+b''.join(struct.pack('<I',n)+txt(b) for n,b in pieces)

def main():
    oracle,harness,vectors,crates=sys.argv[1:]
    numbered(); at_256_constants(); at_the_buffers_ends(); longest(); forms(); inputs_of_weavelist(); list_of_the_oracle(vectors)
    chunks=[whole(pieces) for _,pieces,_,_ in cases]
    o=[]
    for (label,_,lent,known),b,answers in zip(cases,chunks,ask(oracle,harness,chunks)): o+=printed(label,b,lent,known,*answers)
    open(crates+'/replay_test/stdin','wb').write(b''.join(record(*c[:3]) for c in cases))
    open(crates+'/replay_test/stdout','w').write('\n'.join(o)+'\n')
    write_long(crates)
    print(len(cases),'cases')
if __name__=='__main__': main()
