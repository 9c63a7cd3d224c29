import re,glob,os,shutil,sys
SRC=os.environ.get('MSRC','mid/arr/crates'); OUT=os.environ.get('MOUT','mid/merge')
M=['block','search','board','follow','comparison','resolution','judge','beginnings']
if len(sys.argv)>1: M=sys.argv[1].split(',')
mods={};fnmod={};specs={};laws={};typemod={}
for c in M:
    mods[c]=re.findall(r'(?m)^(?:pub )?mod (\w+);',open(f'{SRC}/{c}/src/lib.rt').read())
    fnmod[c]={}
    for f in glob.glob(f'{SRC}/{c}/src/*.rt'):
        m=os.path.basename(f)[:-3]
        for n in re.findall(r'(?m)^(?:pub(?:\(crate\))? )?(?:extern "C" )?fn (\w+)',open(f).read()):
            fnmod[c][n]='' if m=='lib' else m
    specs[c]=[os.path.basename(f)[:-5] for f in glob.glob(f'{SRC}/{c}/specs/*.antt')]
    laws[c]=[os.path.basename(f)[:-5] for f in glob.glob(f'{SRC}/{c}/proofs/*.antt')]
def mod(c,m): return f'{c}_{m}' if m else c
def ref(m):
    c,_,kind,rest=m.group(1),m.group(2),m.group(3),m.group(4)
    if c not in M: return m.group(0)
    comps=rest.split('.')
    tail=''
    if rest.endswith('.'): comps=comps[:-1]; tail='.'
    if kind=='specs':
        if comps[0]=='declared':
            if comps[1] in mods[c]: comps=['declared',mod(c,comps[1])]+comps[2:]
            else: comps=['declared',c]+comps[1:]
        else: comps=[f'{c}_{comps[0]}']+comps[1:]
    else:
        a=comps[0]
        if a in laws[c]: comps=[f'{c}_{a}']+comps[1:]
        elif a in mods[c]: comps=[mod(c,a)]+comps[1:]
        elif a in fnmod[c]: comps=[mod(c,fnmod[c][a])]+comps
        else: comps=[c]+comps
    return f'Rattle·mid·{kind}.{kind}.'+'.'.join(comps)+tail
def antt(t):
    t=re.sub(r'Rattle·(\w+?)(·specs|·proofs)?\.(specs|proofs)\.([\w.\-]*[\w.])',ref,t)
    return t
def rt(t,c):
    lines=[]
    for l in t.split('\n'):
        if l.startswith('ghost use'): lines.append(antt(l)); continue
        m=re.match(r'^(pub )?use (\w+)::(.*);$',l)
        if m:
            p,a,rest=m.group(1) or '',m.group(2),m.group(3)
            if a=='crate':
                b=rest.split('::')
                if b[0] in mods[c]: l=f'{p}use crate::{mod(c,b[0])}::'+'::'.join(b[1:])+';'
                else: l=f'{p}use crate::{c}::{rest};'
            elif a in mods[c]: l=f'{p}use crate::{mod(c,a)}::{rest};'
            elif a in M: l=f'{p}use crate::{a}::{rest};'
        elif re.match(r'^(pub )?mod \w+;$',l): continue
        lines.append(l)
    return '\n'.join(lines)
D=f'{OUT}/crates/mid'
keep={}
os.makedirs(f'{D}/src',exist_ok=True);os.makedirs(f'{D}/specs',exist_ok=True);os.makedirs(f'{D}/proofs',exist_ok=True)
written=set()
def put(f,t):
    written.add(os.path.abspath(f))
    os.makedirs(os.path.dirname(f),exist_ok=True)
    if os.path.exists(f) and open(f).read()==t: return
    open(f,'w').write(t)
lib=[];slib=[];plib=[]
for c in M:
    lib.append(f'mod {c};')
    for f in sorted(glob.glob(f'{SRC}/{c}/src/*.rt')):
        m=os.path.basename(f)[:-3]
        put(f'{D}/src/{mod(c,"" if m=="lib" else m)}.rt',rt(open(f).read(),c))
        if m!='lib': lib.append(f'mod {mod(c,m)};')
    for n in re.findall(r'(?m)^pub mod (\w+)',open(f'{SRC}/{c}/specs/Lib.antt').read()): slib.append(f'pub mod {c}_{n}')
    for n in re.findall(r'(?m)^pub mod (\w+)',open(f'{SRC}/{c}/proofs/Lib.antt').read()): plib.append(f'pub mod {c}_{n}')
    for n in specs[c]:
        if n!='Lib': put(f'{D}/specs/{c}_{n}.antt',antt(open(f'{SRC}/{c}/specs/{n}.antt').read()))
    for n in laws[c]:
        if n!='Lib': put(f'{D}/proofs/{c}_{n}.antt',antt(open(f'{SRC}/{c}/proofs/{n}.antt').read()))
    for f in glob.glob(f'{SRC}/{c}/proofs/**/Proof.antt',recursive=True):
        r=os.path.relpath(os.path.dirname(f),f'{SRC}/{c}/proofs').split('/')
        if r[0] in mods[c] and len(r)>1: r[0]=mod(c,r[0])
        else: r=[c]+r
        put(f'{D}/proofs/'+'/'.join(r)+'/Proof.antt',antt(open(f).read()))
put(f'{D}/src/lib.rt','\n'.join(lib)+'\n')
put(f'{D}/specs/Lib.antt','\n'.join(slib)+'\n')
put(f'{D}/proofs/Lib.antt','\n'.join(plib)+'\n')
for f in glob.glob(f'{D}/**/*',recursive=True):
    if os.path.isfile(f) and os.path.abspath(f) not in written: os.remove(f)
print(len(written),'files')
