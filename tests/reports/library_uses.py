"""Calls that print the results of modules of Python's library, before and after `--fix`: each calls a module `m`, with
a source
`r` of random numbers."""
from typing import Dict

USES: Dict[str, str] = {
    "bisect": r"""
xs = sorted(r.choices(range(9), k=7))
for n in range(9): print(m.bisect_left(xs, n), m.bisect(xs, n, 1, 5))
m.insort(xs, 4)
print(xs)
""",
    "heapq": r"""
xs = r.choices(range(99), k=20)
print(m.nsmallest(5, xs), m.nlargest(3, xs), list(m.merge([1, 4], [2, 3])))
m.heapify(xs)
print(m.heappushpop(xs, 7), m.heapreplace(xs, 50))
m.heappush(xs, 3)
print([m.heappop(xs) for _ in range(20)])
""",
    "textwrap": r"""
text = '  some text-with words,\n  and more: ' * 9
print(m.wrap(text, 20), m.dedent(text), m.indent(text, '> '))
print(m.fill(text, 33), m.shorten(text, 40))
""",
    "colorsys": r"""
for _ in range(40):
    c = r.random(), r.random(), r.random()
    print(m.rgb_to_yiq(*c), m.yiq_to_rgb(*c), m.rgb_to_hls(*c), m.hls_to_rgb(*c), m.rgb_to_hsv(*c), m.hsv_to_rgb(*c))
""",
    "graphlib": r"""
print(list(m.TopologicalSorter({1: [2, 3], 2: [4], 5: []}).static_order()))
try: m.TopologicalSorter({1: [2], 2: [1]}).prepare()
except m.CycleError as fault: print(fault.args)
""",
    "keyword": r"""
print(m.kwlist, [m.iskeyword(it) for it in ('if', 'iff')])
""",
    "stat": r"""
for _ in range(60): print(m.filemode(r.randrange(1 << 16)))
print(m.S_ISDIR(0o40755), m.S_IMODE(0o40755))
""",
    "fnmatch": r"""
print(m.filter(['a.py', 'b.txt', '[x'], '*.p?'), m.translate('a[!b-c]*?**['), m.fnmatchcase('A', 'a'))
""",
    "shlex": r"""
print(m.split('a "b c" d\\ e # f', comments=True), m.quote('a b'), m.join(['x', "y'z"]))
""",
    "string": r"""
print(m.capwords('a  bc'), m.Template('$a ${b} $$').substitute(a=1, b=2), m.punctuation, m.whitespace)
print(m.Formatter().format('{0!r} {a:>4}', 'x', a=3))
""",
    "reprlib": r"""
print(m.repr([list(range(9)), {1: 2}, 'x' * 99, {3}, (4,)]))
""",
    "sched": r"""
t = [0]
s = m.scheduler(lambda: t[0], lambda n: t.append(t.pop() + n))
for n in (3, 1, 2): s.enter(n, 1, print, (n,))
s.run()
print(t, s.empty())
""",
    "queue": r"""
for made in (m.Queue, m.LifoQueue, m.PriorityQueue):
    q = made(3)
    for n in (3, 1, 2): q.put(n)
    print(q.full(), q.qsize(), [q.get() for _ in range(3)])
try: m.Queue().get_nowait()
except m.Empty: print('empty')
""",
    "cmd": r"""
import io
c = type('C', (m.Cmd,), {'do_a': lambda self, it: print(it, file=self.stdout)})(stdout=io.StringIO())
c.onecmd('a b')
c.onecmd('x')
c.columnize([str(n) for n in range(40)])
print(c.stdout.getvalue(), c.parseline('!x y'))
""",
    "glob": r"""
print(m.has_magic('a*'), m.escape('a[b]*'), m.glob('/nowhere/*'))
""",
    "quopri": r"""
data = bytes(r.choices(range(256), k=300))
text = m.encodestring(data)
print(text, m.decodestring(text) == data)
""",
    "copy": r"""
xs = [1, {2: [3]}, (4, [5])]
xs.append(xs)
ys = m.deepcopy(xs)
print(ys, ys[3] is ys, m.copy(xs)[1] is xs[1])
""",
    "calendar": r"""
print(m.month(2024, 2), m.monthrange(2023, 2), m.isleap(1900), m.TextCalendar(6).formatyear(2025, m=4))
""",
    "operator": r"""
print(m.add(1, 2), m.itemgetter(1, 0)('ab'), m.attrgetter('real')(3), m.methodcaller('upper')('a'), m.indexOf([4], 4))
""",
    "linecache": r"""
print(repr(m.getline('/nowhere', 3)), m.getlines('/nowhere'))
""",
    "numbers": r"""
print([issubclass(it, m.Real) for it in (int, float, complex, str)], isinstance(True, m.Integral))
""",
    "base64": r"""
data = bytes(r.choices(range(256), k=99))
for it in ('16', '32', '64', '85'): print(getattr(m, f'b{it}decode')(getattr(m, f'b{it}encode')(data)) == data)
print(m.a85encode(data), m.urlsafe_b64encode(data))
""",
}
