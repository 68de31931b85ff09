import re,sys,os
def fill(path, holes, uses=(), unfold={}):
    s=open(path).read()
    for n,e in holes.items():
        pat=re.compile(r'^('+re.escape(n)+r'(?: [^=\n]*)?) = \?$',re.M)
        if not pat.search(s):
            # allow overwrite of existing expr lines (single-line or till blank)
            pat=re.compile(r'^('+re.escape(n)+r'(?: [^=:\n]*)?) =[^\n]*(?:\n    [^\n]*)*$',re.M)
            if not pat.search(s): print('no hole',n,'in',path); continue
        u=('unfolding '+unfold[n]+'\n') if n in unfold else ''
        e2=e if not e.startswith('\n') else e
        s=pat.sub(lambda m:u+m.group(1)+' = '+e2,s,count=1)
    s=re.sub(r'^((?!Inv-|μ-)\S+ c(?: κs)?) = \?$',r'\1 = search needs',s,flags=re.M)
    # drop unused generated uses
    s=re.sub(r'^use [^\n]*\.(Reads|Lts) as [^\n]*\n','',s,flags=re.M)
    if 'borrow.Author.Needs' not in s: uses=list(uses)+['borrow.Author.Needs.{needs}']
    for x in uses:
        line='use '+x+'\n'
        if line not in s: s=s.replace('-- Assumes nothing.\n','-- Assumes nothing.\n'+line,1)
    open(path,'w').write(s)
import glob
class Ch:
    """paths through the records of a function: Ch('fn')('From','Rec','.field')"""
    def __init__(self,fn,gen='/tmp/gen'):
        f=glob.glob(gen+'/**/'+fn+'/Lts.antt',recursive=True)[0]
        lines=open(f).read().split('\n'); self.bef={}
        i=0
        while i<len(lines):
            m=re.match(r'\s*pub record (\S+) : Type',lines[i]) or re.match(r'\s*pub record (\S+) ',lines[i])
            if m and not m.group(1).endswith(('·own','·gave')):
                n=m.group(1); i+=1
                while i<len(lines) and lines[i].strip():
                    q=re.match(r'\s*pub before :\s*(.*)',lines[i])
                    if q: self.bef[n]=(q.group(1).strip() or lines[i+1].strip()).split()[0]
                    i+=1
            i+=1
    def __call__(self,frm,rec,fld=''):
        n=0;x=frm
        while x!=rec:
            x=self.bef[x]; n+=1
        return 'c'+' .before'*n+fld
