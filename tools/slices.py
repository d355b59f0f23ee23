#!/usr/bin/env python3
"""A plain program of `kact slices`, from the definitions: for fixed revisions whose slices are 1 or more (no random choice).
slices.py run < journal > report ; slices.py mix SEED > journal"""
import random,sys
def slice_of(limit,i,n): return limit//n + (1 if i < limit % n else 0)
class Activator:
    def __init__(self,cc,depth,most,pods,timeout,start):
        self.cc,self.depth,self.most,self.timeout=cc,depth,most,timeout
        self.limit={p:cc for p in range(pods)}; self.state={p:'starting' for p in range(pods)}
        self.req=[]  # [arrival, state, pod]: held/run/ended
        self.place=0; self.rows=[(start,f'create {p} {cc}') for p in range(pods)]
    def running(self,p): return sum(1 for r in self.req if r[1]=='run' and r[2]==p)
    def ready(self): return [p for p in sorted(self.state) if self.state[p]=='ready']
    def capacity(self): return min(self.most,sum(self.limit[p] or self.most for p in self.ready()))
    def choice(self):
        ready=self.ready(); free=lambda p: self.running(p)<self.limit[p]
        if self.cc<=3:
            for p in ready:
                if free(p): return p
            return None
        at=self.place if self.place<len(ready) else 0
        for k in range(len(ready)):
            j=(at+k)%len(ready)
            if free(ready[j]): self.place=j+1; return ready[j]
        return None
    def step(self,t,act):
        out=[]
        for r,q in enumerate(self.req):
            if q[1]=='held' and q[0]+self.timeout<=t: q[1]='ended'; out.append(f'expire {r}')
        k=act[0]
        if k=='arrive':
            r=len(self.req)
            if sum(q[1] in('held','run') for q in self.req)>=20000: self.req.append([t,'ended',None]); out.append(f'overload {r}')
            elif sum(q[1] in('held','run') for q in self.req)>=self.depth+self.most: self.req.append([t,'ended',None]); out.append(f'queue-full {r} -')
            else: self.req.append([t,'held',None]); out.append(f'admit {r} {act[1]}')
        elif k=='finish':
            r=act[1]
            if r<len(self.req) and self.req[r][1]=='run': self.req[r][1]='ended'; out.append(f'finish {r} {act[2]}')
            else: out.append(f'not-running {r}')
        elif k=='cancel':
            r=act[1]
            if r<len(self.req) and self.req[r][1]=='held': self.req[r][1]='ended'; out.append(f'cancel {r}')
            else: out.append(f'not-waiting {r}')
        elif k=='ready':
            p=act[1]
            if p not in self.state: out.append(f'no-pod {p}')
            elif self.state[p]!='starting': out.append(f'not-starting {p}')
            else: self.state[p]='ready'; out.append(f'ready {p}')
        elif k=='limit': self.limit[act[1]]=act[2]; out.append(f'limit {act[1]} {act[2]}')
        while True:
            held=[r for r,q in enumerate(self.req) if q[1]=='held']
            use=sum(q[1]=='run' for q in self.req)
            if not held or use>=self.capacity(): break
            p=self.choice()
            if p is None: break
            self.req[held[0]][1:]=['run',p]; out.append(f'assign {held[0]} {p}')
        return [(t,o) for o in out]
def run(lines):
    n=int(lines[0].split()[2]); f=dict(x.split('=') for x in lines[1].split()[1:]); f={k:int(v) for k,v in f.items()}
    start=int(lines[2].split()[1]); L,pods=f['limit'],f['pods']
    acts=[Activator(slice_of(L,i,n),f['depth'],f['max'],pods,1000*f['timeout'],start) for i in range(n)]
    N=[L]*pods; F=[L]*pods; out=[]
    def put(i,rows): out.extend(f'{i} {t} {r}' for t,r in rows)
    for i,a in enumerate(acts): put(i,a.rows)
    def hold(p): return sum(max(a.limit[p],a.running(p)) for a in acts)
    def force():
        for p in range(pods):
            if hold(p)<=N[p]: F[p]=N[p]
    def due():
        for p in range(pods):
            for i,a in enumerate(acts):
                if slice_of(N[p],i,n)<a.limit[p]: return i,p
        for p in range(pods):
            for i,a in enumerate(acts):
                t=slice_of(N[p],i,n)
                if t>a.limit[p] and hold(p)-max(a.limit[p],a.running(p))+max(t,a.running(p))<=N[p]: return i,p
    events=0; peak=0
    for line in lines[3:]:
        w=line.split()
        if w==['end']: break
        events+=1; old=list(F); t=int(w[1]); act=[w[2]]+[int(x) if x.isdigit() else x for x in w[3:]]
        if w[0]=='-' and w[2]=='limit':
            p,m=act[1],act[2]; N[p]=m; F[p]=max(F[p],m); force()
        elif w[0]=='-':
            for i,a in enumerate(acts): put(i,a.step(t,act)); force()
        else: put(int(w[0]),acts[int(w[0])].step(t,act)); force()
        while (d:=due()) is not None:
            i,p=d; put(i,acts[i].step(t,['limit',p,slice_of(N[p],i,n)])); force()
        for p in range(pods):
            assert sum(a.running(p) for a in acts)<=F[p]
            if F[p]!=old[p]: out.append(f'- {t} in-force {p} {F[p]}')
    out.append(f'end events={events}')
    return out
def mix(seed):
    g=random.Random(seed); n=4; L=15; pods=3
    lines=[f'kact slices {n}',f'fixed limit={L} depth=2 max=7 pods={pods} timeout=6 seed=0','start 1000']
    t=1000; count=[0]*n
    for k in range(300):
        t+=g.choice([0,0,1,20,60,150,400])
        x=g.random()
        if k<3 or x<0.015: lines.append(f'- {t} ready {g.randrange(pods)}')
        elif x<0.12: lines.append(f'- {t} limit {g.randrange(pods)} {g.randint(n,20)}')
        else:
            i=g.randrange(n)
            if x<0.52: lines.append(f'{i} {t} arrive {g.randrange(1000)}'); count[i]+=1
            elif x<0.93: lines.append(f"{i} {t} finish {g.randrange(max(0,count[i]-9),count[i]+1)} {g.choice(['ok','ok','fail'])}")
            elif x<0.97: lines.append(f'{i} {t} cancel {g.randrange(max(0,count[i]-6),count[i]+1)}')
            else: lines.append(f'{i} {t} pass')
    return lines+['end']
if sys.argv[1]=='run': print('\n'.join(run(sys.stdin.read().splitlines())))
else: print('\n'.join(mix(int(sys.argv[2]))))
