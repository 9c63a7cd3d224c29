#!/usr/bin/env python3
"""arrays.py CRATE.. : lends block and ask as arrays in src/, drops the clauses on sizes, rewrites the proofs' paths.
Clause lists before are kept in mid/clauses.json (made from the sources by 'scan')."""
import re,sys,glob,json,os
ROOT='crates'
ALL=['block','search','board','follow','comparison','resolution','judge','beginnings','printing','conversion','gym','host','trials']
def functions(text):
    """yields (name, start, end_of_header, params_text, clauses)"""
    for m in re.finditer(r'(?m)^(?:[ ]*)(?:#\[[^\]]*\]\n)?(?:pub(?:\([a-z]+\))? )?(?:extern "C" )?fn (\w+)(?:<[^>]*>)?\(',text):
        i=m.end(); d=1
        while d:
            ch=text[i]
            if ch=='(':d+=1
            if ch==')':d-=1
            i+=1
        params=text[m.end():i-1]
        # header up to the line that is '{' 
        e=text.find('\n{',i)
        e1=text.find(' {\n',i)
        nl=text.find('\n',i)
        if e1!=-1 and e1<nl: head=''
        else: head=text[i:e]
        clauses=re.findall(r'requires (\w+) \{ ⌜ (.*?) ⌝ \}',head,re.S)
        yield m.group(1),m.start(),i,params,clauses
def scan():
    out={}
    for c in ALL:
        for f in glob.glob(f'{ROOT}/{c}/src/**/*.rt',recursive=True):
            t=open(f).read()
            for n,s,i,p,cl in functions(t):
                out.setdefault(n,[]).append([c,f,[[a,b] for a,b in cl],p])
    return out
if __name__=='__main__':
    if sys.argv[1]=='scan':
        d=scan()
        json.dump(d,open('mid/clauses.json','w'),indent=0)
        print(len(d), sum(len(x[2]) for v in d.values() for x in v))
        for n,v in d.items():
            if len(v)>1 and any(x[2] for x in v): print('several',n,[(x[0],[a for a,b in x[2]]) for x in v])

SIZES={'block':('SIZE','IsBlock'),'ask':('ASKSIZE','IsAsk')}
KEEP=set()   # (fn) whose params stay slices
def change_src(crate, root, use_block, use_ask, keep=(), arr64=()):
    for f in glob.glob(f'{root}/{crate}/src/**/*.rt',recursive=True):
        t=open(f).read(); o=t
        out=[];last=0
        for n,s,i,p,cl in functions(t):
            if n in keep: continue
            # end of header
            e=t.find('\n{',i)
            nl=t.find('\n',i)
            if t.find(' {\n',i)!=-1 and t.find(' {\n',i)<nl: e=nl
            head=t[s:e]
            h=head
            for par,(size,pred) in SIZES.items():
                h=re.sub(r'\b%s: &(\'\w+ )?(mut )?\[u64\]'%par, lambda m: f'{par}: &{m.group(1) or ""}{m.group(2) or ""}[u64; {size}]',h)
                h=re.sub(r'\n *requires \w+ \{ ⌜ %s \(now %s\) ⌝ \}'%(pred,par),'',h)
            for par in arr64:
                if re.search(r'\b%s: &(mut )?\[u64\]'%par,h) and re.search(r'64 ≤ length \(now %s\)'%par,h):
                    h=re.sub(r'\b%s: &(mut )?\[u64\]'%par, lambda m: f'{par}: &{m.group(1) or ""}[u64; 64]',h)
                    h=re.sub(r'\n *requires \w+ \{ ⌜ 64 ≤ length \(now %s\) ⌝ \}'%par,'',h)
            if h!=head:
                out.append((s,e,h))
        for s,e,h in reversed(out): t=t[:s]+h+t[e:]
        if t!=o:
            body='\n'.join(l for l in t.split('\n') if not l.startswith('ghost use'))
            for pred in ('IsBlock','IsAsk'):
                if not re.search(r'\b%s\b'%pred,body):
                    t=re.sub(r'(ghost use [^\n]*\{)([^}]*)\};',lambda m: fix_use(m,pred),t)
            if not re.search(r'(?<![\w-])length(?![\w-])',body):
                t=re.sub(r'(ghost use lib\.ListN\.\{)([^}]*)\};',lambda m: fix_use(m,'length'),t)
            if not re.search(r'≤',body):
                t=re.sub(r'(ghost use Prim\.Native\.Nat\.\{)([^}]*)\};',lambda m: fix_use(m,'_≤_'),t)
            t=re.sub(r'ghost use [^\n]*\{\};\n','',t)
            for size,mod in (('SIZE',use_block),('ASKSIZE',use_ask)):
                if mod and re.search(r'\[u64; %s\]'%size,body) and not re.search(r'(?m)^(pub )?use .*::%s;'%size,t) and not re.search(r'const %s'%size,t):
                    # add use line sorted among uses
                    line=f'use {mod}::{size};'
                    m=re.search(r'(?m)^use ',t) or re.search(r'(?m)^ghost use ',t)
                    t=t[:m.start()]+line+'\n'+t[m.start():]
            open(f,'w').write(t)
            print('changed',f)
def fix_use(m,name):
    names=[x.strip() for x in m.group(2).split(',')]
    names=[x for x in names if x!=name and x]
    return m.group(1)+', '.join(names)+'};'

def shift(f,k):
    """decrement by k the number of .before on paths that reach .args/.pre, directly or through an alias"""
    s=open(f).read()
    def dec(m):
        n=m.group(2).count('.before')
        assert n>=k,(f,m.group(0))
        return m.group(1)+' .before'*(n-k)+m.group(3)
    # aliases: let X = c .before... in, where 'X .args' or 'X .pre' occurs in the file's same clause
    lines=s.split('\n')
    # handle clause-wise: a clause is lines from a col-0 definition until next blank line
    paras=re.split(r'(\n\s*\n)',s)
    for i,p in enumerate(paras):
        if 'before' not in p and '.args' not in p: continue
        p=re.sub(r'(\b[a-z]\w*)((?: \.before)+)( \.(?:args|pre|κs|good)\b)',dec,p)
        for m in list(re.finditer(r'let (\w+) = (\b[a-z]\w*)((?: \.before)+) in',p)):
            x=m.group(1)
            if re.search(r'(?<![\w.])%s \.(args|pre|κs|good)\b'%x,p):
                n=m.group(3).count('.before')
                p=p.replace(m.group(0),f'let {x} = {m.group(2)}'+' .before'*(n-k)+' in')
        paras[i]=p
    open(f,'w').write(''.join(paras))

def scan_root(root,crates=None):
    out={}
    for f in glob.glob(f'{root}/*/src/**/*.rt',recursive=True):
        c=f[len(root)+1:].split('/')[0]
        if crates and c not in crates: continue
        t=open(f).read()
        for n,s,i,p,cl in functions(t):
            out.setdefault(n,{})[c]=[a for a,b in cl]
    return out

class Maps:
    def __init__(self,oldroot,newroot):
        self.old=scan_root(oldroot); self.new=scan_root(newroot)
    def get(self,name,crate):
        """old and new clause lists of a function seen from a crate"""
        o=self.old.get(name); n=self.new.get(name)
        if o is None: return None
        if crate in o: c=crate
        elif len(o)==1: c=list(o)[0]
        else:
            pick=[x for x in ('block','search','board','follow','comparison','resolution') if x in o]
            if not pick: return None
            c=pick[0]
        return o[c],n[c]

def path_of(i,n):
    if n==1: return ''
    return ' .1'*i+('' if i==n-1 else ' .0')

def map_pre(path,old,new,measure,flag):
    """path: string like ' .1 .1 .0 ..'; returns new path or None (removed)"""
    toks=path.split()
    toks=[t for t in toks]
    k=0
    pos=0
    off=1 if measure else 0
    n=len(old)+off
    names=(['<measure>'] if measure else [])+old
    newnames=(['<measure>'] if measure else [])+new
    if n==0: return path
    if n==1:
        if names[0] not in newnames: return None
        return path_of(newnames.index(names[0]),len(newnames))+path
    while pos<len(toks) and toks[pos]=='.1' and k<n-1:
        k+=1;pos+=1
    if k<n-1 and pos<len(toks) and toks[pos]=='.0':
        rest=toks[pos+1:]
        idx=k
    elif k==n-1:
        rest=toks[pos:]; idx=k
    else:
        # a tail of clauses
        tail=names[k:]
        rest=toks[pos:]
        kept=[x for x in tail if x in newnames]
        assert newnames[len(newnames)-len(kept):]==kept
        if rest: flag(f'tail with rest {rest}')
        return ' .1'*(len(newnames)-len(kept))+''.join(' '+t for t in rest)
    x=names[idx]
    if x not in newnames: return None
    return path_of(newnames.index(x),len(newnames))+''.join(' '+t for t in rest)

REMOVED='⟦removed⟧'
def split_tuple(s):
    """'(a, (b, c))' -> nested list [a, b, c] for right nested pairs, as far as n parts are wanted"""
    s=s.strip()
    if not (s.startswith('(') and s.endswith(')')): return [s]
    # matching
    d=0
    for i,ch in enumerate(s):
        if ch=='(':d+=1
        elif ch==')':
            d-=1
            if d==0 and i<len(s)-1: return [s]
    inner=s[1:-1]
    d=0
    for i,ch in enumerate(inner):
        if ch in '([{':d+=1
        elif ch in ')]}':d-=1
        elif ch==',' and d==0:
            return [inner[:i].strip()]+[inner[i+1:].strip().rstrip(',').strip()]
    return [s]
def parts_of(s,n):
    out=[]
    while len(out)<n-1:
        p=split_tuple(s)
        if len(p)!=2: return None
        out.append(p[0]); s=p[1]
    out.append(s)
    return out
def join_tuple(ps):
    if len(ps)==1: return ps[0]
    return '('+ps[0]+', '+join_tuple(ps[1:])+')'

def rewrite_proofs(crate,root,maps,log):
    for f in sorted(glob.glob(f'{root}/{crate}/proofs/**/Proof.antt',recursive=True)):
        d=os.path.basename(os.path.dirname(f))
        cyc=d.startswith('+')
        fns=d[1:].split('+') if cyc else [d]
        s=open(f).read(); o=s
        paras=re.split(r'(\n\s*\n)',s)
        for i,p in enumerate(paras):
            m=re.match(r'(?:abbrev |pub )*([\w·μκ-]+) ',p)
            # skip comment lines
            name=None
            for line in p.split('\n'):
                mm=re.match(r'(?:abbrev |pub )*([a-zA-Zμ][\w\-]*) :',line)
                if mm: name=mm.group(1);break
            if not name: continue
            def flag(x): log.append(f'{f[len(root)+1:]}: {name}: {x}')
            if cyc:
                own=[g for g in fns if name.startswith(g.replace('_','-')+'-')]
                own=max(own,key=len) if own else None
                if own is None:
                    # guess by the lts that it names
                    mm=re.search(r'(\w[\w-]*)-lts\.',p)
                    own=mm.group(1).replace('-','_') if mm else fns[-1]
                need=name[len(own)+1:] if name.startswith(own.replace('_','-')+'-') else name
            else: own=fns[0]; need=name
            ms=maps.get(own,crate)
            if ms is None: flag('unknown function '+own); continue
            old,new=ms
            if old!=new:
                def rep(m):
                    q=map_pre(m.group(2),old,new,cyc,flag)
                    if q is None: return m.group(1)+REMOVED+m.group(2)
                    return m.group(1)+q
                p=re.sub(r'((?:(?<![\w.])[a-z]\w*(?: \.before)*)? ?\.pre(?![\w-]))((?: \.[01])*)',rep,p)
                # aliases of pre
                for al in set(re.findall(r'let (\w+) = [^=]*?\.pre in',p)):
                    def rep2(m):
                        q=map_pre(m.group(2),old,new,cyc,flag)
                        if q is None: return m.group(1)+REMOVED+m.group(2)
                        return m.group(1)+q
                    # the alias itself was 'X .pre' with empty path: undo any mapping done there
                    p=re.sub(r'(let %s = [^=]*?\.pre)(%s)?((?: \.[01])*) in'%(al,REMOVED),r'\1 in',p)
                    p=re.sub(r'((?<![\w.])%s)((?: \.[01])+)'%al,rep2,p)
            # calls
            mm=re.match(r'(.*)-requires(-\d+)?$',need)
            if mm:
                callee=mm.group(1).replace('-','_')
                cm=maps.get(callee,crate)
                if cm is None: flag('unknown callee '+callee)
                else:
                    co,cn=cm
                    ccyc=1 if (callee in fns and cyc) else 0
                    if co!=cn:
                        # body: after 'κs ='
                        b=re.search(r'κs =\s*',p)
                        body=p[b.end():]
                        if not re.search(r'^\s*(search needs|tt|omega arith)\s*$',body):
                            # peel lets
                            lets=''
                            rest=body
                            while True:
                                l=re.match(r'\s*let \w+(?: :[^=]*)? = ',rest)
                                if not l: break
                                # find matching ' in' at depth 0
                                dd=0;j=l.end()
                                while True:
                                    ch=rest[j]
                                    if ch in '([{':dd+=1
                                    if ch in ')]}':dd-=1
                                    if dd==0 and re.match(r'\s+in\s',rest[j:j+40] if False else rest[j:j+6]):
                                        break
                                    j+=1
                                k=re.match(r'\s+in\s+',rest[j:])
                                lets+=rest[:j]+rest[j:j+k.end()]
                                rest=rest[j+k.end():]
                            ps=parts_of(rest,len(co)+ccyc)
                            if ps is None:
                                n=len(co)+ccyc
                                while n>1 and ps is None:
                                    n-=1; ps=parts_of(rest,n)
                                if not re.search(r'\.pre( \.1)*$',ps[-1]): ps=None
                            if ps is None:
                                flag(f'call of {callee}: not a tuple: {rest[:80]!r}')
                            else:
                                names=(['<m>'] if ccyc else [])+co
                                nn=(['<m>'] if ccyc else [])+cn
                                keep=[x for x,y in zip(ps,names) if y in nn]
                                if len(ps)<len(names) and names[len(ps)-1] not in nn:
                                    left=[y for y in names[len(ps)-1:] if y in nn]
                                    if left: keep.append(ps[-1])
                                if not keep: rest='search needs' if False else 'tt'
                                else: rest=join_tuple(keep)
                                p=p[:b.end()]+lets+rest
            if REMOVED in p: flag('removed fact used: '+p[max(0,p.index(REMOVED)-60):p.index(REMOVED)+40].replace('\n',' '))
            paras[i]=p
        s=''.join(paras)
        if s!=o: open(f,'w').write(s)

def array_params(root):
    out={}
    for f in glob.glob(f'{root}/*/src/**/*.rt',recursive=True):
        c=f[len(root)+1:].split('/')[0]
        t=open(f).read()
        for n,s,i,p,cl in functions(t):
            out[(c,n)]=len(re.findall(r'\[u64; ?\w+\]',p))
    return out
def redo(crate,oldroot='crates',root='arr/crates'):
    maps=Maps(oldroot,root)
    old=array_params(oldroot); new=array_params(root)
    for f in glob.glob(f'{oldroot}/{crate}/proofs/**/Proof.antt',recursive=True):
        g=root+f[len(oldroot):]
        os.makedirs(os.path.dirname(g),exist_ok=True)
        open(g,'w').write(open(f).read())
    log=[]
    rewrite_proofs(crate,root,maps,log)
    for f in glob.glob(f'{root}/{crate}/proofs/**/Proof.antt',recursive=True):
        s=open(f).read()
        s=re.sub(r'= let \w+ = [^=\n]* in tt(?=\n)','= tt',s)
        open(f,'w').write(s)
        d=os.path.basename(os.path.dirname(f))
        fns=d[1:].split('+') if d.startswith('+') else [d]
        ks={new.get((crate,n),0)-old.get((crate,n),0) for n in fns}
        if len(ks)>1: print('several',f,ks)
        k=ks.pop()
        if k: shift(f,k)
    print('\n'.join(x for x in log if 'unknown callee' not in x))
