"""Reads a CodeGeneratorRequest into dicts, by hand."""
import struct, sys
class Msg:
    def __init__(self, data):
        n=struct.unpack_from('<I',data,0)[0]+1
        sizes=struct.unpack_from('<%dI'%n,data,4)
        pos=4+4*n
        pos=(pos+7)//8*8
        self.segs=[]
        for s in sizes:
            self.segs.append(struct.unpack_from('<%dQ'%s,data,pos)); pos+=8*s
    def follow(self, seg, off):
        w=self.segs[seg][off]
        if w==0: return None
        k=w&3
        if k==2:
            s=w>>32; o=(w>>3)&((1<<29)-1)
            if w&4:
                fw=self.segs[s][o]; tag=self.segs[s][o+1]
                s2=fw>>32; o2=(fw>>3)&((1<<29)-1)
                return tag, s2, o2
            pw=self.segs[s][o]
            return pw, s, o+1+self.off(pw)
        return w, seg, off+1+self.off(w)
    @staticmethod
    def off(w):
        o=(w&0xffffffff)>>2
        return o-(1<<30) if o>=1<<29 else o
    def root(self):
        return self.struct(0,0)
    def struct(self, seg, off):
        f=self.follow(seg,off)
        if f is None: return S(self,0,0,0,0)
        w,s,o=f
        return S(self,s,o,(w>>32)&0xffff,w>>48)
class S:
    def __init__(self,m,s,o,d,p): self.m,self.s,self.o,self.d,self.p=m,s,o,d,p
    def u(self,w,i):
        b=i*w
        if b//64>=self.d: return 0
        return (self.m.segs[self.s][self.o+b//64]>>(b%64))&((1<<w)-1)
    def ptr(self,i):
        if i>=self.p: return None
        return self.m.follow(self.s,self.o+self.d+i)
    def struct(self,i):
        if i>=self.p: return S(self.m,0,0,0,0)
        return self.m.struct(self.s,self.o+self.d+i)
    def bytes(self,i):
        f=self.ptr(i)
        if f is None: return b''
        w,s,o=f; n=w>>35
        words=self.m.segs[s][o:o+(n+7)//8]
        return struct.pack('<%dQ'%len(words),*words)[:n]
    def text(self,i): return self.bytes(i)[:-1].decode()
    def list(self,i):
        f=self.ptr(i)
        if f is None: return []
        w,s,o=f
        assert (w>>32)&7==7
        t=self.m.segs[s][o]; n=(t&0xffffffff)>>2; d=(t>>32)&0xffff; p=t>>48
        return [S(self.m,s,o+1+k*(d+p),d,p) for k in range(n)]
def typ(t):
    k=t.u(16,0)
    r={'kind':k}
    if k==14: r['elem']=typ(t.struct(0))
    if k in(15,16,17): r['id']=t.u(64,1)
    return r
def value(v):
    k=v.u(16,0)
    r={'kind':k}
    if k==1: r['v']=v.u(1,16)
    elif k in(2,6): r['v']=v.u(8,2)
    elif k in(3,7,15): r['v']=v.u(16,1)
    elif k in(4,8,10): r['v']=v.u(32,1)
    elif k in(5,9,11): r['v']=v.u(64,1)
    elif k in(12,13): r['v']=v.bytes(0)
    else: r['v']=None if v.ptr(0) is None else True
    return r
def load(path):
    m=Msg(open(path,'rb').read()); r=m.root()
    nodes={}
    for n in r.list(0):
        d=dict(id=n.u(64,0),name=n.text(0),prefix=n.u(32,2),scope=n.u(64,2),kind=n.u(16,6),nested=[(x.text(0),x.u(64,0)) for x in n.list(1)])
        if d['kind']==1:
            d.update(words=n.u(16,7),ptrs=n.u(16,12),group=n.u(1,224),dcount=n.u(16,15),doff=n.u(32,8))
            d['fields']=[]
            for f in n.list(3):
                g=dict(name=f.text(0),disc=f.u(16,1)^0xffff,which=f.u(16,4))
                if g['which']==0: g.update(offset=f.u(32,1),type=typ(f.struct(2)),default=value(f.struct(3)))
                else: g['group']=f.u(64,2)
                g['ordinal']=f.u(16,6) if f.u(16,5)==1 else None
                d['fields'].append(g)
        elif d['kind']==2: d['enumerants']=[e.text(0) for e in n.list(3)]
        elif d['kind']==4: d['type']=typ(n.struct(3)); d['value']=value(n.struct(4))
        nodes[d['id']]=d
    docs={}
    for s in r.list(3): docs[s.u(64,0)]=(s.text(0),[x.text(0) for x in s.list(1)])
    files=[dict(id=f.u(64,0),name=f.text(0)) for f in r.list(1)]
    return nodes,docs,files
if __name__=='__main__':
    n,d,f=load(sys.argv[1])
    for x in n.values(): print(x)
    print(list(d.items())[:5]); print(f)
