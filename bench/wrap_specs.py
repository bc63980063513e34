#!/usr/bin/env python3
"""Breaks lines of specs/*.antt above 120 columns: wrap_specs.py CLONE [CRATE..]. It puts line breaks and indentation in the
place of single spaces and changes nothing else (checked: the words of each file stay as they were). Imports and comments
are left (wrap_comments.py has the comments). Prints what is still too long."""
import glob,os,re,sys
os.chdir(sys.argv[1]); names=sys.argv[2:] or sorted(os.listdir('crates'))
LIMIT=120
OPEN,CLOSE='({[⟦','⟧]})'
# where a line may be broken, before these words; the first of equal depth that fill a line best is taken
WORDS=(' → ',' × ',' ++ ',' ⊎ ',' ∙ ',' && ',' || ',' ≡ ',' (',' record ',' then ',' else ',' >>= ',' (λ ',' λ ',' in ',' ∷ ',' = ',' : ',' {')
def breaks(line,start):
    """Positions of spaces at which the line may be broken, with the depth there and how good it is."""
    depth=0; text=False; out=[]
    for i,ch in enumerate(line):
        if text:
            if ch=='"' : text=False
            continue
        if ch=='"': text=True; continue
        if ch in OPEN: depth+=1
        elif ch in CLOSE: depth-=1
        elif ch==' ' and i>start:
            rest=line[i:]
            rank=None
            if rest.startswith((' → ',' × ',' ⊎ ')): rank=0
            elif rest.startswith((' ++ ',' ∙ ',' && ',' || ',' >>= ')): rank=0
            elif rest.startswith((' then ',' else ')): rank=0
            elif line[i-1]==';': rank=0
            elif line[:i].endswith(' in'): rank=-0.5
            elif line[i-1]=='=' and line[i-2]==' ': rank=3 if re.search(r'\blet [^=]*=$',line[:i]) else 0.5
            elif line[i-1]=='.' and re.search(r'λ[^.]*\.$',line[:i]): rank=1
            elif rest.startswith(' ≡ '): rank=0.7
            elif rest.startswith((' (',' {',' record ')) : rank=1
            elif line[i-1]==',' : rank=1
            else: rank=3
            out.append((i,depth+rank,depth))
    return out
def broken(line):
    ind=len(line)-len(line.lstrip())
    out=[]; first=True; cont=ind+4
    while len(line)>LIMIT:
        start=len(line)-len(line.lstrip())
        ps=[p for p in breaks(line,start) if p[0]<=LIMIT and p[0]>=start+12]
        if not ps: break
        best=min(p[1] for p in ps)
        at=max(p[0] for p in ps if p[1]==best)
        # an equation goes behind its sign where what follows fits then
        eq=[p[0] for p in ps if line[p[0]-1]=='=' and line[p[0]-2]==' ' and p[2]==0 and not re.search(r'\blet ',line[:p[0]])]
        if first and eq and cont+len(line)-eq[0]-1<=LIMIT: at=eq[0]
        out.append(line[:at]); line=' '*cont+line[at+1:]; first=False
    out.append(line)
    return out
left=0; changed=0
for c in names:
    for f in sorted(glob.glob(f'crates/{c}/specs/**/*.antt',recursive=True)):
        text=open(f,encoding='utf-8').read(); new=[]
        for l in text.split('\n'):
            s=l.lstrip()
            if len(l)>LIMIT and not s.startswith(('use ','pub use ','--')) and ' -- ' not in l:
                new+=broken(l)
            else: new.append(l)
        t='\n'.join(new)
        assert t.split()==text.split(),f
        if t!=text: changed+=1; open(f,'w',encoding='utf-8').write(t)
        for n,l in enumerate(new):
            if len(l)>LIMIT and not l.lstrip().startswith(('use ','pub use ','--')): left+=1; print(f,n+1,len(l))
print('files',changed,'still too long',left)
