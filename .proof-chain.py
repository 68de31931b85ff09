import re,sys,glob
for f in glob.glob('/tmp/gen/**/'+sys.argv[1]+'/Lts.antt',recursive=True):
    lines=open(f).read().split('\n')
    bef={}; own={}
    i=0
    while i<len(lines):
        m=re.match(r'\s*pub record (\S+) : Type',lines[i]) or re.match(r'\s*pub record (\S+) ',lines[i])
        if m and not m.group(1).endswith(('·own','·gave')):
            n=m.group(1); i+=1
            while i<len(lines) and lines[i].strip():
                q=re.match(r'\s*pub (\S+) :\s*(.*)',lines[i])
                if q:
                    if q.group(1)=='before': bef[n]=q.group(2).strip() or lines[i+1].strip()
                    else: own.setdefault(n,[]).append(q.group(1))
                i+=1
        i+=1
    for n in bef: print(n,'<-',bef[n].split()[0],own.get(n))
