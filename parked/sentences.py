#!/usr/bin/env python3
"""sentences.py ROOT: puts the better sentences of sentences_data.py above the definitions. sentences.py --table ROOT: prints them."""
import os,re,sys,textwrap
sys.path.insert(0,os.path.dirname(os.path.abspath(__file__)))
from sentences_data import N
from sentences_data2 import N2
N=N+[('crates/'+f,a,b) for f,a,b in N2]
table='--table' in sys.argv
root=[a for a in sys.argv[1:] if not a.startswith('--')][0]
def blocks(lines):
    i=0
    while i<len(lines):
        m=re.match(r'^(\s*)-- (?!-)(.*)$',lines[i])
        if not m: i+=1; continue
        ind=m.group(1); j=i; text=[]
        while j<len(lines):
            n=re.match(r'^'+re.escape(ind)+r'-- (.*)$',lines[j])
            if not n: break
            text.append(n.group(1)); j+=1
        yield i,j,ind,text
        i=j
def wc(s): return len([w for w in s.split() if re.search(r'\w',w)])
done=0
for f,old,new in N:
    if new is None: continue
    p=os.path.join(root,f); lines=open(p,encoding='utf8').read().split('\n')
    hits=[]
    for i,j,ind,text in blocks(lines):
        t=' '.join(text)
        k=t.find(old)
        if k>=0 and (k==0 or t[k-2:k] in('. ','! ')): hits.append((i,j,ind,t,k))
    if len(hits)!=1: print('HITS',len(hits),f,old); continue
    i,j,ind,t,k=hits[0]
    m=re.search(r'(?<=[.!?])\s+(?=[A-Z`])',t[k:])
    e=k+m.start() if m else len(t)
    olds=t[k:e]
    long=[s for s in re.split(r'(?<=[.!?])\s+(?=[A-Z`])',new) if wc(s)>25]
    for s in long: print('LONG',wc(s),f,s)
    if table:
        print('| `%s:%d` | %d | %s | %s |' % (f, i + 1, wc(olds), olds.replace('|', chr(92) + '|'), new.replace('|', chr(92) + '|'))); continue
    t2=t[:k]+new+t[e:]
    lines[i:j]=textwrap.wrap(t2,140,initial_indent=ind+'-- ',subsequent_indent=ind+'-- ',break_long_words=False,break_on_hyphens=False)
    open(p,'w',encoding='utf8').write('\n'.join(lines)); done+=1

if not table:
    p=os.path.join(root,'crates/tk_sites/specs/Span.antt'); s=open(p,encoding='utf8').read()
    s=re.sub(r'^-- ---- places at the moment, each found by .*$','-- ---- places at the moment. The stream up to it is a beginning of the whole, so a place stands',s,flags=re.M)
    open(p,'w',encoding='utf8').write(s)
print('' if table else f'{done} put')
