#!/usr/bin/env python3
"""Wraps comments: wrap_comments.py CLONE [CRATE..]. In src/*.rt those of a block with a line above 110 columns, in
specs/*.antt above 120. Nothing but comments is changed (checked: the lines that aren't comments stay as they were).
Blocks that a must-fail edit quotes are left. Prints the files and what is still too long."""
import glob,os,re,sys,textwrap
os.chdir(sys.argv[1]); names=sys.argv[2:] or sorted(os.listdir('crates'))
left=[]; changed=0
def wrapped(block,indent,mark,limit):
    # paragraphs, list items apart
    body=[l.strip()[len(mark):] for l in block]
    out=[];para=[]
    def flush():
        nonlocal para
        if para:
            text=' '.join(x.strip() for x in para)
            hang='  ' if re.match(r'(- |\d+\. )',text) else ''
            out.extend(indent+mark+' '+x for x in textwrap.wrap(text,limit-len(indent)-len(mark)-1,subsequent_indent=hang,break_long_words=False,break_on_hyphens=False))
            para=[]
    for b in body:
        if not b.strip(): flush(); out.append(indent+mark); continue
        if re.match(r' ?(- |\d+\. |\||#)',b): flush()
        para.append(b)
        if re.match(r' ?(\||#)',b): flush()
    flush()
    return out
for c in names:
    quoted=' '.join(open(f,encoding='utf-8').read() for f in glob.glob(f'crates/{c}/must-fail/*'))
    for part,ending,limit in (('src','.rt',110),('specs','.antt',120)):
        for f in sorted(glob.glob(f'crates/{c}/{part}/**/*{ending}',recursive=True)):
            text=open(f,encoding='utf-8').read(); lines=text.split('\n')
            marks=('///','//!','//') if ending=='.rt' else ('--',)
            def mark_of(l):
                s=l.strip()
                for m in marks:
                    if s==m or s.startswith(m+' '): return m
                return None
            out=[];i=0
            while i<len(lines):
                m=mark_of(lines[i])
                if not m: out.append(lines[i]); i+=1; continue
                ind=lines[i][:len(lines[i])-len(lines[i].lstrip())]
                j=i
                while j<len(lines) and mark_of(lines[j])==m and lines[j].startswith(ind+m): j+=1
                block=lines[i:j]
                if any(len(l)>limit for l in block) and not any('```' in l or '----' in l for l in block) and not any(l.strip() in quoted for l in block if len(l.strip())>12):
                    block=wrapped(block,ind,m,limit)
                out+=block; i=j
            new='\n'.join(out)
            if new!=text:
                keep=lambda t:[l for l in t.split('\n') if not mark_of(l)]
                words=lambda t:' '.join(' '.join(l.strip()[len(mark_of(l)):] for l in t.split('\n') if mark_of(l)).split())
                assert keep(new)==keep(text) and words(new)==words(text),f
                open(f,'w',encoding='utf-8').write(new); changed+=1
            for n,l in enumerate(out):
                if len(l)>limit and mark_of(l): left.append((f,n+1,len(l)))
print('files changed',changed); [print(*x) for x in left]
