#!/usr/bin/env python3
"""Brings the must-fail edits to the spelling of the files that they change.

usage: tools/respell_edits.py      at the top of the repository, once, after port.py and tools/respell.py

A line that stands in its file as it was stays; the others are respelled, and those that then don't stand there once are printed, and stay, for a hand.
"""
import glob
import os
import re

TOP = os.path.dirname(os.path.dirname(os.path.realpath(__file__)))
def snake(name):
    if name=="transform2D": return "transform_2d"
    name = re.sub(r"(?<=[a-z0-9])([A-Z]+)(?=$|[-_0-9'])", lambda m: "_" + m.group(1).lower(), name)
    name = re.sub(r"(?<=[a-z0-9])([A-Z])", lambda m: "_" + m.group(1).lower(), name)
    return name.lower() if '-' not in name else name
def spell(t):
    t=t.replace('⌜ ','').replace(' ⌝','').replace('λ r. ','')
    t=re.sub(r"(?<![\w])[a-z][a-z0-9]*[A-Z]\w*",lambda m:snake(m.group(0)),t)
    t=re.sub(r"\bget_d\b","get_or",t)
    t=re.sub(r"(?<=[\w)]) \.(?=[a-z0-9])",".",t)
    t=re.sub(r"\(now ([\w]+) \)",r"\1.now",t)
    t=re.sub(r"\(now ([\w]+)\)",r"\1.now",t)
    t=re.sub(r"\(now \(([\w]+)\.(\w+)\)\)",r"\1.\2.now",t)
    t=t.replace("′","'")
    return t
bad=0;ok=0
badlist=[]
for e in sorted(glob.glob(TOP+'/crates/*/must-fail/*.edit')):
    rel=os.path.relpath(e,TOP); crate='/'.join(rel.split('/')[:2])
    lines=open(e).read().split('\n')
    f=[l[6:] for l in lines if l.startswith('file: ')]
    assert len(f)==1,(e,f)
    text=open(f'{TOP}/{crate}/{f[0]}').read()
    out=[];good=True;cur=text
    why=''
    i=0
    pend=None
    for l in lines:
        if l.startswith('old: '):
            o=l[5:]
            cands=[o,spell(o)]
            for c in cands:
                if cur.count(c)==1: break
            else:
                good=False; why=o; c=spell(o)
            pend=c; out.append('old: '+c); how=cands.index(c) if c in cands else 1
        elif l.startswith('new: '):
            n=l[5:] if (pend==l[5:] or how==0) else spell(l[5:])
            n=spell(l[5:])
            cur=cur.replace(pend,n,1); out.append('new: '+n)
        else: out.append(l)
    if good:
        ok+=1
        open(f'{TOP}/{rel}','w').write('\n'.join(out))
    else:
        bad+=1; badlist.append((rel,f[0],why,out))
print(ok,bad)
for r,f,w,o in badlist:
    print(r,f); print('   ',w)
