# Renames a public name of specs/: rename.py CRATE MODULE OLD NEW, in the top folder of a worktree. Files that import OLD from MODULE, the
# declaring file and their edits. Comments and names that are imported `as` another stay.
import re,sys
from pathlib import Path
ROOT=Path('.'); CR=ROOT/'crates'
B=r"(?<![\w·'\-.])"; E=r"(?![\w·'\-])(?!\.\{)(?! as )"
LONG=re.compile(r"^((?:ghost )?use [^\n{]*\{)\n([^}]*)\}",re.M)
def uses(text):
    """(path, name, alias) of all use lines"""
    out=[]
    for m in re.finditer(r"^(?:ghost )?use ((?:[^;\n{]|\{(?:[^{}]|\{[^{}]*\})*\})+);?$",text,re.M):
        out+=parts(" ".join(m[1].split()))
    return out
def parts(tree):
    tree=tree.strip(); alias=None
    f=re.fullmatch(r"(.*\S) as (\S+)",tree)
    if f and f[1].count("{")==f[1].count("}"): tree,alias=f[1],f[2]
    b=tree.find(".{")
    if b<0: return [(tree,alias)]
    path,inner=tree[:b],tree[b+2:-1]; d=0;items=[];last=""
    for c in inner+",":
        d+=(c=="{")-(c=="}")
        if c=="," and d==0:
            if last.strip(): items.append(last.strip())
            last=""
        else: last+=c
    return [(f"{path}.{n}",a) for it in items for n,a in parts(it)]
def files():
    for pat in ["*/specs/**/*.antt","*/proofs/**/*.antt","*/src/**/*.rt"]:
        yield from CR.glob(pat)
def users(crate,module,name):
    """files that import the name from the module, or the module itself (qualified), and the declaring file"""
    res=[]
    for p in files():
        t=p.read_text()
        if not re.search(B+re.escape(name)+E,t) and f".{name}" not in t: continue
        decl = p==CR/crate/'specs'/f"{module}.antt"
        imp=[]; mod=[]
        for path,alias in uses(t):
            m=re.fullmatch(rf"Rattle·{crate}(?:·\w+)?\.(?:specs\.)?specs\.{re.escape(module)}(?:\.(.+))?",path)
            if m and m[1]==name: imp.append(alias)
            elif m and m[1] is None: mod.append(alias or module.split('.')[-1])
        if decl or imp or mod: res.append((p,decl,imp,mod))
    return res
def others(p,name,crate,module):
    """imports of the same name from elsewhere"""
    t=p.read_text(); out=[]
    for path,alias in uses(t):
        last=path.split('.')[-1]
        if (alias or last)==name and not re.fullmatch(rf"Rattle·{crate}(?:·\w+)?\.(?:specs\.)?specs\.{re.escape(module)}\.{re.escape(name)}",path): out.append(path)
    return out
def edits(p):
    c=p.relative_to(CR).parts[0]; rel=str(p.relative_to(CR/c))
    for f in list((CR/c/'must-fail').glob('*.edit'))+list((ROOT/'edits'/c).glob('*.edit')):
        if re.search(rf"^file: {re.escape(rel)}$",f.read_text(),re.M): yield f
if __name__=="__main__":
    crate,module,name=sys.argv[1:4]
    us=users(crate,module,name)
    if len(sys.argv)==4:
        print(f"{crate}/{module}.{name}:"," ".join(sorted({str(p.relative_to(CR)) .split('/')[0] for p,_,_,_ in us})),len(us),"files;",
          "ALIASED" if any(a for _,_,imp,_ in us for a in imp) else "", "MODULE" if any(m for *_,m in us) else "", 
          "CLASH" if any(others(p,name,crate,module) for p,_,_,_ in us) else "")
    else:
        new=sys.argv[4]
        touched=[]
        for p,decl,imp,mod in us:
            t=p.read_text(); o=t
            if imp and all(a for a in imp):   # always aliased: only use lines
                t=re.sub(B+re.escape(name)+r"(?= as )",new,t)
            elif decl or imp:
                assert not others(p,name,crate,module),(p,others(p,name,crate,module))
                if decl and re.search(B+re.escape(new)+E,t): continue  # renamed already
                t="\n".join(l if l.lstrip().startswith(("--","//")) else re.sub(B+re.escape(name)+E,new,l) for l in t.split("\n"))
            for a in mod:
                t=re.sub(B+re.escape(a)+r"\."+re.escape(name)+E,f"{a}.{new}",t)
            if t!=o:
                p.write_text(t); touched.append(str(p))
                for e in edits(p):
                    et=e.read_text(); n="\n".join(re.sub(B+re.escape(name)+E,new,l) if l.startswith(("old:","new:")) else l for l in et.split("\n"))
                    if n!=et: e.write_text(n); touched.append(str(e))
        print(name,"->",new,len(touched))
