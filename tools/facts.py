# Facts that stand in the contracts of three or more functions of a crate, and pairs of parameters that three or more take.
import re,glob,sys,collections
files=[f for f in sorted(glob.glob('crates/*/src/*.rt')) if '_tests' not in f]
facts=collections.defaultdict(list); params=collections.defaultdict(list)
for f in files:
    s=open(f).read()
    crate=f.split('/')[1]
    for m in re.finditer(r'fn (\w+)(?:<[^>]*>)?\((.*?)\)(?: -> [^\n{]*)?\n((?:\s+(?:requires|ensures)[^\n]*\n)+)',s,re.S):
        name,ps,cl=m.groups()
        for c in re.findall(r'(?:requires|ensures)(?: \w+)? \{ (.*) \}',cl):
            # a clause with its names of variables rubbed out
            for part in [c]:
                k=re.sub(r'\b(\w+)\.(old|new|now)\b',r'\1',part)
                facts[(crate,k)].append(name)
        P=[re.sub(r'\s+',' ',p.strip()) for p in ps.split(',') if p.strip() and 'self' not in p]
        P=[re.sub(r'\bmut ','',p) for p in P]
        for i in range(len(P)):
            for j in range(i+1,len(P)):
                params[(crate,P[i],P[j])].append(name)
print('facts in three or more contracts'); n=0
for k,v in sorted(facts.items()):
    if len(v)>=3: n+=1; print(' ',k[0],len(v),k[1][:110])
print(n)
print('pairs of parameters in three or more functions'); n=0
for k,v in sorted(params.items()):
    if len(v)>=3: n+=1; print(' ',k[0],len(v),k[1],'|',k[2])
print(n)
