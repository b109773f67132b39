"""Counts the product functions that the call graph of a `paint` of one type names, from `serve`'s read of the line to
the write of its reply, in the sources of this tree: python3 bench/path.py [--list | --calls]

Calls are resolved by the types of fields, parameters and results. Where a `match`, or a chain of comparisons with
words, decides what the line is, only the arm in TAKEN is followed; all other branches count. Conversions by `?`, drops and derived code don't.
Those with a loop or several callers are counted too: with one loop a function and nothing written twice there can't be
fewer. `--list` has the functions by file, `--calls` who names them too."""
import collections, pathlib, re, sys

TOP = pathlib.Path(__file__).resolve().parent.parent
START = 'mls_wire', 'serve'
# What the line is wherever commands part: a variant of each of these types, and a word.
TAKEN = {'ScriptLine': 'Text', 'Line': 'Run', 'Event': 'Command', 'Command': 'Paint', 'Response': 'Answered',
         'Answer': 'Commanded', 'Reply': 'Done', 'b"paint"': None}
# The type that stands for a parameter with this bound.
BOUNDS = {'Names': ('mls_server', 'Server'), 'Sessions': ('mls_server', 'Server')}
TESTS = re.compile(r'.*_tests|mls_growths|mls_plain_check')
TOKEN = re.compile(r'b?"(?:\\.|[^"\\])*"|b?\'(?:\\.|[^\'\\])\'|\'\w+|[A-Za-z_]\w*!?|\d\w*|->|=>|::|\.\.=?|&&|\|\||\S')
WORD, LITERAL = re.compile(r'[A-Za-z_]\w*$'), re.compile(r'b["\']')
CLOSE = {'(': ')', '[': ']', '{': '}', '<': '>'}
OPEN, SHUT = set('([{'), set(')]}')
Fn = collections.namedtuple('Fn', 'key file bounds params result body')


def depth(token):
    return (token in OPEN) - (token in SHUT)


def end(tokens, at):
    """The place behind the bracket that opens at `at`."""
    one, other, level = tokens[at], CLOSE[tokens[at]], 0
    while True:
        level += (tokens[at] == one) - (tokens[at] == other)
        at += 1
        if not level:
            return at


def until(tokens, at, marks):
    """The first place from `at` on with one of the marks outside of brackets, or the end."""
    while at < len(tokens) and tokens[at] not in marks:
        at = end(tokens, at) if tokens[at] in OPEN else at + 1
    return at


def parts(tokens):
    """The parts between commas that stand in no bracket."""
    found, level = [[]], 0
    for token in tokens:
        level += depth(token) + (token == '<') - (token == '>')
        found.append([]) if token == ',' and not level else found[-1].append(token)
    return [part for part in found if part]


def clean(text):
    """The tokens of a source without comments, attributes, contracts and ghosts."""
    text = re.sub(r'("(?:\\.|[^"\\])*"|b?\'(?:\\.|[^\'\\])\')|//[^\n]*', lambda m: m[1] or '', text)
    out, at = [], 0
    for m in re.finditer(r'^\s*(requires|ensures|ghost|prove!|assert!|#\[)', text, re.M):
        if m.start() >= at:
            out.append(text[at:m.start()])
            level, at = int(m[1] == '#['), m.end()
            while level or text[at - 1] not in {'requires': '}', 'ensures': '}', '#[': ']'}.get(m[1], ';,'):
                level += depth(text[at])
                at += 1
    return TOKEN.findall(''.join(out) + text[at:])


class File:
    def __init__(self, crate, path, tree):
        text = path.read_text()
        self.crate, self.tree, self.tokens, self.uses, self.renamed = crate, tree, clean(text), {}, {}
        self.path = str(path.relative_to(TOP))
        for m in re.finditer(r'^\s*(?:pub )?use (\w+)(?:::\w+)*?::(?:(\w+)|\{([^}]*)\});', text, re.M):
            for words in (re.findall(r'\w+', part) for part in (m[2] or m[3]).split(',')):
                if words:
                    self.uses[words[-1]] = crate if m[1] in ('crate', 'super') else m[1]
                    self.renamed[words[-1]] = words[0]

    def name(self, word):
        """A type's name, with its crate if it is the product's."""
        whole = self.uses.get(word, self.crate), self.renamed.get(word, word)
        return whole if whole in self.tree.types else word

    def read(self):
        """Notes the fields of structs, and the functions."""
        t, at, home, stop = self.tokens, 0, '', 0
        while at < len(t):
            home = home if at < stop else ''
            if t[at] == 'impl' and at >= stop:
                brace = t.index('{', at)
                head = t[end(t, at + 1) if t[at + 1] == '<' else at + 1:brace]
                head = [w for w in head[head.index('for') if 'for' in head else 0:] if WORD.match(w) and w != 'for']
                home, stop, at = self.name(head[0]), end(t, brace), brace
            elif t[at] == 'struct':
                name, at = t[at + 1], next(i for i in range(at, len(t)) if t[i] in '{(;')
                for i, part in enumerate(parts(t[at + 1:end(t, at) - 1]) if t[at] != ';' else []):
                    key = part[part.index(':') - 1] if ':' in part else str(i)
                    self.tree.fields[(self.crate, name), key] = self, part[part.index(':') + 1 if ':' in part else 0:]
                    self.tree.owners[key].add((self.crate, name))
            elif t[at] == 'fn':
                name, at, bounds = t[at + 1], at + 2, {}
                if t[at] == '<':
                    bounds = {p[0]: BOUNDS[b] for p in parts(t[at + 1:end(t, at) - 1]) for b in p if b in BOUNDS}
                    at = end(t, at)
                params, at = parts(t[at + 1:end(t, at) - 1]), end(t, at)
                brace = next(i for i in range(at, len(t)) if t[i] in '{;')
                if t[brace] == '{':
                    fn = Fn((self.path, home, name), self, bounds, params, t[at + 1:brace], t[brace:end(t, brace)])
                    self.tree.functions[home or self.crate, name].append(fn)
                    at = end(t, brace) - 1
            at += 1


class Tree:
    def __init__(self):
        self.fields, self.functions, self.owners = {}, collections.defaultdict(list), collections.defaultdict(set)
        crates = [line.split(':')[0] for line in (TOP / 'crates.txt').read_text().split('\n') if line]
        files = [File(crate, path, self) for crate in crates if not TESTS.match(crate)
                 for path in sorted((TOP / 'crates' / crate / 'src').rglob('*.rt'))]
        self.types = {(f.crate, b) for f in files for a, b in zip(f.tokens, f.tokens[1:]) if a in ('struct', 'enum')}
        for f in files:
            f.read()


def compared(body):
    """A body without the branches of each comparison with words that the line doesn't take."""
    at = 0
    while at < len(body):
        opening = until(body, at + 1, ('{', '=>')) if body[at] == 'if' else at
        if body[opening:opening + 1] == ['{'] and opening > at:
            stop, branches = at, []
            while body[stop:stop + 1] == ['if']:
                brace = until(body, stop + 1, ('{',))
                branches.append((body[stop + 1:brace], body[brace:end(body, brace)]))
                stop = end(body, brace)
                stop += body[stop:stop + 2] == ['else', 'if']
            tests = [[t for t in test if t.startswith('b"') or t.startswith("b'") and test[:2] == ['let', '[']]
                     for test, _ in branches]
            if all(tests):
                last = body[stop + 1:end(body, stop + 1)] if body[stop:stop + 1] == ['else'] else []
                taken = [block for test, (_, block) in zip(tests, branches) if any(t in TAKEN for t in test)]
                body = body[:at] + (taken[0] if taken else last) + body[stop + 1 + len(last) if last else stop:]
        at += 1
    return body


def followed(body):
    """A body without the arms of each `match` that the line doesn't take."""
    body = compared(body)
    for at in range(len(body)):
        if body[at:at + 1] == ['match']:
            brace = at
            while body[brace] != '{':
                brace = end(body, brace) if body[brace] in OPEN else brace + 1
            close, start, arms = end(body, brace), brace + 1, []
            while start < close - 1:
                arrow = until(body, start, ('=>',))
                stop = end(body, arrow + 1) if body[arrow + 1] == '{' else until(body, arrow + 1, ',}')
                stop += body[stop] == ','
                pairs = list(zip(body[start:arrow], body[start + 1:arrow] + ['', ''], body[start + 2:arrow] + ['', '']))
                out = any(a in TAKEN and b == '::' and c != TAKEN[a] or LITERAL.match(a) and a not in TAKEN
                          for a, b, c in pairs)
                arms.append((out, any(a in TAKEN for a, _, _ in pairs) and not out, body[start:stop]))
                start = stop
            some = any(taken for _, taken, _ in arms)
            kept = [arm for out, taken, arm in arms if not out and (taken or not some)]
            body = body[:brace + 1] + sum(kept, []) + body[close - 1:]
    return body


def types(file, tokens, bounds, home):
    """The product's types that tokens name."""
    words = {bounds.get(t) or file.name(t) for t in tokens} | ({home} if 'Self' in tokens else set())
    return {word for word in words if isinstance(word, tuple)}


def named(tree, fn):
    """The functions that one names. A method is that of the type by which its receiver is declared, as a parameter or
    a field, and else of any type at hand: those that the function names, and those of the fields and results in it."""
    file, body, home = fn.file, followed(fn.body), fn.key[1]
    declared = {p[p.index(':') - 1]: types(file, p, fn.bounds, home) for p in fn.params if ':' in p} | {'self': {home}}
    hand = types(file, body + fn.result, fn.bounds, home).union(*declared.values())
    found, size = {}, -1
    while size < len(found) + len(hand):
        size = len(found) + len(hand)
        for word in set(body):
            for kind in hand & tree.owners[word]:
                other, tokens = tree.fields[kind, word]
                declared.setdefault(word, set()).update(types(other, tokens, {}, kind))
        hand = hand.union(*declared.values())
        for owner, mark, word, after in zip([''] * 2 + body, [''] + body, body, body[1:] + ['']):
            kinds = {home} if owner == 'Self' else {file.name(owner)} if mark == '::' else declared.get(owner, hand)
            fns = []
            if mark == '::' or mark == '.' and after == '(':
                fns = [f for kind in kinds for f in tree.functions.get((kind, word), [])]
            if not fns and mark != '.' and (after == '(' or word in file.uses):
                fns = tree.functions.get((file.uses.get(word, file.crate), word), [])
                fns = [f for f in fns if f.file is file] or fns[:1]
            if word == 'for':
                fns = [f for kind in hand for f in tree.functions.get((kind, 'next'), [])]
            for f in fns:
                found[f.key] = f
                hand |= types(f.file, f.result, f.bounds, f.key[1])
    return found


def main():
    tree = Tree()
    calls, loops, queue = {}, set(), tree.functions[START]
    while queue:
        fn, *queue = queue
        if fn.key not in calls:
            found = named(tree, fn)
            calls[fn.key] = set(found)
            loops |= {fn.key} if {'for', 'while', 'loop'} & set(fn.body) else set()
            queue += found.values()
    callers = collections.Counter(key for found in calls.values() for key in found)
    needed = sum(key in loops or callers[key] > 1 for key in calls)
    crates = collections.Counter(path.split('/')[1] for path, _, _ in calls)
    by_crate = ', '.join(f'{crate} {n}' for crate, n in crates.most_common())
    print(len(calls), 'product functions,', needed, 'with a loop or several callers:', by_crate)
    for key in sorted(calls, key=str) if sys.argv[1:] else []:
        names = sorted({by[2] for by in calls if key in calls[by]}) if '--calls' in sys.argv else []
        print(key[0], (key[1][1] + '::' if key[1] else '') + key[2], *names)


main()
