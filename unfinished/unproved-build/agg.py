import re,sys
o={};b={};order=[]
sec=None
for f in sys.argv[1:]:
    sec='r'
    for l in open(f):
        if l.startswith('Writing'): sec='w'
        m=re.match(r'(.{28}) +(\d+) tokens +([\d.]+) ns +before +([\d.]+) ns +times',l)
        m2=re.match(r'growth of (.*?) +([\d.]+) ns at (\d+) tokens, +([\d.]+) ns at (\d+): [\d.]+ +times ([\d.]+) of before',l)
        if m:
            k=(sec,m[1].strip(),m[2]); o.setdefault(k,[]).append(float(m[3])); b.setdefault(k,[]).append(float(m[4]))
        elif m2 and sec=='r':
            k=('r-short',m2[1],m2[3]); o.setdefault(k,[]).append(float(m2[2])); b.setdefault(k,[]).append(float(m2[2])/float(m2[6]))
for k in o: print(k, o[k], b[k], round(min(o[k])/min(b[k]),3))
for s in ['r','r-short','w']:
    q=[min(o[k])/min(b[k]) for k in o if k[0]==s]
    if q: print(s,len(q),sum(q)/len(q),max(q))
