"""Reads the .antt and .rt files of crates/ as text: definitions, imports, contracts, and which definition a name means.

A name is found by its file's imports. What is bound inside a definition (parameters, patterns, `λ`, `let`, `where`) is no citation; where this reader cannot
tell (the patterns of an `elim`), a name counts as cited. A field of a record and a constructor belong to their type; a projection ` .field` cites nothing.
"""
import bisect
import collections
import pathlib
import re

top = pathlib.Path(__file__).resolve().parents[1]
TOKEN = re.compile(r'«[^»]*»|"(?:[^"\\]|\\.)*"|[(){}.;,@]|[^\s(){}.;,@"«»]+')
MARKS = ('pub', 'abbrev', 'unfoldable', 'axiom')
LISTED = r'(\w+)(?: [^:#]*)?:(.*)'             # a line of crates.txt: a crate, what kind it is where it is no plain one, and what it depends on
WORDS = set('data record deriving module where use mod pub package using open as unfoldable abbrev axiom unfold unfolding ruleset mutual infix infixl infixr '
            'elim let in do λ ∀ Type → ← ↦ = : | _'.split())
Token = collections.namedtuple('Token', 'text line column dotted tight')     # behind a dot; that dot right behind a name


def uncommented(text):
    """The same lines and columns without comments."""
    text = re.sub(r'\{-.*?-\}', lambda m: re.sub(r'[^\n]', ' ', m[0]), text, flags=re.S)
    return re.sub(r'(?m)(^|(?<=[\s(){}.;,]))--(?=[\s-]|$).*', '', text)


def tokens(text, line=1):
    """The tokens of antt text; dots are left out, except those that end binders."""
    found = []
    for number, row in enumerate(text.split('\n'), line):
        at = list(TOKEN.finditer(row))
        for i, m in enumerate(at):
            word = m[0]
            if word == '.':
                if i + 1 < len(at) and at[i + 1].start() == m.end():
                    continue
                found.append(Token('.', number, m.start(), False, False))
                continue
            dotted = i > 0 and at[i - 1][0] == '.' and at[i - 1].end() == m.start()
            tight = dotted and i > 1 and at[i - 2].end() == at[i - 1].start() and at[i - 2][0] not in '(){};,@'
            found.append(Token(word.strip('«»') if word[0] == '«' else word, number, m.start(), dotted, tight))
    return found


def parts(name):
    """What of a name stands between the arguments of an operator."""
    return [part for part in name.split('◌') if part] if '◌' in name else [name]


class Import:
    """`use MODULE.{names}` or `use MODULE as alias`; from `first` to `last` the lines."""

    def __init__(self, module, names, alias, first, last, public, ghost, indent):
        self.module, self.names, self.alias, self.first, self.last, self.public, self.ghost, self.indent = module, names, alias, first, last, public, ghost, indent
        self.code = False         # of Rust's kind, `use crate::Name;`

    def text(self, names):
        if self.code:
            inner = ', '.join(name if name == local else '%s as %s' % (name, local) for name, local in names)
            return 'use %s::%s;' % (self.module, inner if len(names) == 1 else '{%s}' % inner)
        inner = ', '.join(name if name == local else '%s as %s' % (name, local) for name, local in names)
        return '%s%suse %s.{%s}%s' % (' ' * self.indent, 'ghost ' if self.ghost else 'pub ' if self.public else '', self.module, inner, ';' if self.ghost else '')


class Definition:
    """`first` to `last` are its lines, from its signature on; `comment` the first line of the comment above; `modules` those it stands in; `members` the fields of a
    record, the constructors of a data type. Its kind is abbrev, unfoldable, axiom, record, data, or law for what has no mark."""

    def __init__(self, file, name, kind, public, first, comment, modules):
        self.file, self.name, self.kind, self.public, self.first, self.last, self.comment, self.modules = file, name, kind, public, first, first, comment, modules
        self.members = []
        self.cited = set()        # (name, what it is qualified by or None)
        self.stated = set()       # the same of what it says alone: its signature, or all of a record or data type

    def __repr__(self):
        return '%s.%s' % (self.file.crate, self.name)

    @property
    def place(self):
        return '%s:%d' % (self.file.path.relative_to(top), self.first)

    @property
    def lines(self):
        """How many lines it has, without comments and blank lines."""
        return sum(1 for row in self.file.bare[self.first - 1:self.last] if row.strip())


class Module:
    """A `module _ (parameters) where`: what it binds, what its parameters cite, and the module around it."""

    def __init__(self, first, indent, bound, above):
        self.first, self.last, self.indent, self.bound, self.above = first, first, indent, bound, above
        self.cited = set()


class File:
    """An .antt file; `folder` is specs or proofs, `module` its path in there, `local` what its imports bring: local name to (module, name)."""

    def __init__(self, path, crate):
        self.path, self.crate = path, crate
        inside = path.relative_to(top / 'crates' / crate).with_suffix('').parts
        self.folder, self.module = inside[0], '.'.join(inside[1:])
        self.function = self.folder == 'proofs' and path.name in ('Invariants.antt', 'Answers.antt', 'Proof.antt') and len(inside) > 2
        self.text = path.read_text()
        self.rows = self.text.split('\n')
        self.bare = uncommented(self.text).split('\n')
        self.imports, self.definitions, self.modules, self.mods = [], [], [], []
        self.read()
        self.by_name = collections.defaultdict(list)
        self.members = {}
        for d in self.definitions:
            self.by_name[d.name].append(d)
            for member in d.members:
                self.members.setdefault(member, d)
        self.local = {}
        for i in self.imports:
            for name, local in i.names:
                self.local[local] = (i.module, name)
            if i.alias:
                self.local[i.alias] = (i.module, None)

    def read(self):
        stack = []                # modules around
        now = None                # the definition that clauses belong to
        number = 0
        while number < len(self.bare):
            row = self.bare[number]
            number += 1
            if not row.strip():
                continue
            indent = len(row) - len(row.lstrip())
            while stack and indent < stack[-1].indent:
                stack.pop()
                now = None
            here = stack[-1].indent if stack else 0
            for m in stack:
                m.last = number
            if indent > here:
                if now:
                    now.last = number
                continue
            words = [t.text for t in tokens(row)]
            marks = 0
            while words[marks] in MARKS and marks + 1 < len(words):
                marks += 1
            public, first = 'pub' in words[:marks], words[marks]
            if first == 'use':
                number = self.read_import(number, indent, public)
                now = None
            elif first == 'mod':
                self.mods.append(words[marks + 1])
                now = None
            elif first == 'module':
                start = number
                while not re.search(r'\bwhere\s*$', self.bare[number - 1]):
                    number += 1
                inside = next(i for i in range(number, len(self.bare)) if self.bare[i].strip())
                module = Module(start, len(self.bare[inside]) - len(self.bare[inside].lstrip()), set(), stack[-1] if stack else None)
                head = tokens('\n'.join(self.bare[start - 1:number]), start)[1:-1]
                scan(head, bound_around(module.above), module.cited, module.bound)
                self.modules.append(module)
                stack.append(module)
                now = None
            elif first in ('infix', 'infixl', 'infixr', 'open', 'mutual', 'ruleset'):
                now = None
            elif first in ('record', 'data'):
                now = self.define(words[marks + 1], first, public, number, stack)
            elif len(words) > marks + 1 and (words[marks + 1] == ':' or (words[marks + 1] == '{' and re.match(r'[^{]*\{[^}:=]*\}\s*:', row))):
                kind = next((w for w in words[:marks] if w != 'pub'), 'law')
                now = self.define(first, kind, public, number, stack)
            elif now:
                now.last = number
        for d in self.definitions:
            self.cite(d)

    def read_import(self, number, indent, public):
        first, text = number, self.bare[number - 1]
        while text.count('{') > text.count('}'):
            text += ' ' + self.bare[number]
            number += 1
        self.imports.append(import_of(text, first, number, public, False, indent))
        return number

    def define(self, name, kind, public, number, stack):
        comment = number
        while comment > 1 and self.rows[comment - 2].strip().startswith('--') and not self.rows[comment - 2].strip().startswith('-- ----'):
            comment -= 1
        if comment == 1:          # the file's own comment
            comment = number
        d = Definition(self, name, kind, public, number, comment, list(stack))
        self.definitions.append(d)
        return d

    def cite(self, d):
        around = bound_around(d.modules[-1] if d.modules else None)
        rows = self.bare[d.first - 1:d.last]
        if d.kind in ('record', 'data'):
            words = tokens('\n'.join(rows), d.first)
            at = next((i for i, t in enumerate(words) if t.text == 'where'), len(words))
            inside = set(around)
            bound = set()
            begin = next(i for i, t in enumerate(words) if t.text == d.name) + 1
            scan(words[begin:at], around, d.cited, bound)
            inside |= bound
            body = words[at + 1:]
            if body:
                column = min(t.column for t in body)
                starts = [i for i, t in enumerate(body) if t.column == column and (i == 0 or body[i - 1].line < t.line)] + [len(body)]
                for a, b in zip(starts, starts[1:]):
                    piece = [t for t in body[a:b]]
                    while piece and piece[0].text in MARKS:
                        piece = piece[1:]
                    colon = next((i for i, t in enumerate(piece) if t.text == ':'), 0)
                    d.members += [t.text for t in piece[:colon]]
                    if d.kind == 'record':
                        scan(piece[colon + 1:], inside, d.cited, set())
                        inside |= {t.text for t in piece[:colon]}
                    else:
                        scan(piece[colon + 1:], inside | {d.name}, d.cited, set())
            d.stated = d.cited
        else:
            block(rows, d.first, around, d.cited, d.name)
            block(rows[:signature_end(rows)], d.first, around, d.stated, d.name)
        d.cited.discard((d.name, None))


def signature_end(rows):
    """How many of a definition's lines are its signature."""
    indent = len(rows[0]) - len(rows[0].lstrip())
    return next((i for i, row in enumerate(rows) if i and row.strip() and len(row) - len(row.lstrip()) <= indent), len(rows))


def import_of(text, first, last, public, ghost, indent):
    m = re.match(r'\s*(?:unfoldable )?(?:pub |ghost )?use ([^{}\s]+?)(?:\.\{(.*)\}|::\{(.*)\}|\s+as\s+(\S+?))?;?\s*$', text)
    names = []
    inner = m[2] if m[2] is not None else m[3]
    if inner is not None:
        for each in inner.split(','):
            words = each.split()
            if words:
                names.append((words[0], words[-1]))
    return Import(m[1], names, m[4], first, last, public, ghost, indent)


def bound_around(module):
    bound = set()
    while module:
        bound |= module.bound
        module = module.above
    return bound


def block(rows, line, bound, cited, name=None):
    """Declarations, as of one definition or of a `where`: what they cite goes into `cited`."""
    pieces, indent = [], None
    for i, row in enumerate(rows):
        if not row.strip():
            continue
        deep = len(row) - len(row.lstrip())
        if indent is None:
            indent = deep
        if deep <= indent or not pieces:
            pieces.append([i, i])
        pieces[-1][1] = i
    pieces = [(a, tokens('\n'.join(rows[a:b + 1]), line + a)) for a, b in pieces]
    heads = []
    for a, words in pieces:
        while words and words[0].text in MARKS:
            words = words[1:]
        heads.append((a, words))
    own = {words[0].text for _, words in heads if len(words) > 1 and words[1].text == ':'}
    inside = bound | own if name is None else bound
    for a, words in heads:
        if words[0].text == 'unfolding':
            for t in words[1:]:
                cite(t, bound, cited)
        elif len(words) > 1 and words[1].text == ':' or re.match(r'\s*(?:\w+ )*\S+ \{[^}:=]*\}\s*:', rows[a]):
            colon = next(i for i, t in enumerate(words) if t.text == ':')
            scan(words[colon + 1:], inside | {t.text for t in words[1:colon]}, cited, set())
        else:
            clause(words, rows, line, inside, cited)


def clause(words, rows, line, bound, cited):
    """`f patterns = term` with or without a `where` block."""
    depth, equals, where = 0, None, None
    for i, t in enumerate(words):
        if t.text in '({':
            depth += 1
        elif t.text in ')}':
            depth -= 1
        elif t.text == '=' and depth == 0 and equals is None:
            equals = i
        elif t.text == 'where' and depth == 0 and where is None:
            where = i
    if equals is None:
        scan(words, bound, cited, set())
        return
    inside = set(bound)
    for t in words[1:equals]:
        if not t.dotted and t.text not in WORDS and t.text not in '(){};,@.':
            inside.add(t.text)
            cited.add((t.text, 'pattern'))
        elif t.dotted:
            cite(t, bound, cited)
    for a, b in zip(words[1:], words[2:equals]):
        if b.tight and not a.dotted:
            cited.add((a.text, None))
            cited.add((b.text, a.text))
    body = words[equals + 1:where]
    if where is not None and where + 1 < len(words):
        begin = words[where + 1].line
        end = words[-1].line
        local = {m[1] for m in (re.match(r'\s*(\S+) :', rows[i - line]) for i in range(begin, end + 1)) if m}
        inside |= local
        block(rows[begin - line:end - line + 1], begin, inside, cited)
    scan(body, inside, cited, set())


def cite(t, bound, cited):
    if t.dotted or t.text in WORDS or t.text in '(){};,@.' or t.text[0] == '"':
        return
    if t.text not in bound:
        cited.add((t.text, None))


def scan(words, bound, cited, tail):
    """A term or a telescope from left to right; each binder holds to the end of the parentheses it stands in. What the telescope binds goes into `tail`."""
    scopes = [set()]              # one for each open parenthesis
    lets = []                     # names of a `let` before its `in`

    def held(name):
        return name in bound or any(name in s for s in scopes)

    i = 0
    while i < len(words):
        t = words[i]
        if t.text in ('(', '{'):
            j = i + 1
            while j < len(words) and words[j].text not in WORDS and words[j].text not in '(){};,@.' and not words[j].dotted:
                j += 1
            if j > i + 1 and j < len(words) and words[j].text == ':':
                end, depth = j, 0
                while end < len(words) and not (words[end].text in (')', '}') and depth == 0):
                    depth += (words[end].text in ('(', '{')) - (words[end].text in (')', '}'))
                    end += 1
                scan(words[j + 1:end], bound.union(*scopes), cited, set())
                scopes[-1] |= {w.text for w in words[i + 1:j]}
                i = end + 1
                continue
            scopes.append(set())
        elif t.text in (')', '}'):
            if len(scopes) > 1:
                scopes.pop()
            while lets and lets[-1][1] > len(scopes):
                lets.pop()
        elif t.text == 'λ':
            j, depth = i + 1, 0
            while j < len(words) and not (words[j].text == '.' and depth == 0):
                depth += (words[j].text in ('(', '{')) - (words[j].text in (')', '}'))
                j += 1
            scan(words[i + 1:j], bound.union(*scopes) | {w.text for w in words[i + 1:j] if w.text not in WORDS and not typed(words, i + 1, w, j)}, cited, set())
            scopes[-1] |= {w.text for w in words[i + 1:j] if w.text not in WORDS and w.text not in '(){};,@.' and not typed(words, i + 1, w, j)}
            i = j
        elif t.text == 'let':
            j = i + 1
            names = set()
            while j < len(words) and words[j].text not in (':', '='):
                if words[j].text not in WORDS and words[j].text not in '(){};,@.':
                    names.add(words[j].text)
                j += 1
            lets.append((names, len(scopes)))
            i = j
        elif t.text == 'in':
            if lets:
                scopes[-1] |= lets.pop()[0]
        elif i + 1 < len(words) and words[i + 1].text == '=' and i and words[i - 1].text in '{;':
            pass                  # the label of a field or of an implicit argument
        elif t.dotted and t.tight:
            back = i - 1
            if not held(words[back].text) or words[back].dotted:
                cited.add((t.text, words[back].text))
        elif not t.dotted and not held(t.text):
            cite(t, bound, cited)
        i += 1
    tail |= scopes[0]


def typed(words, begin, w, end):
    """Whether w stands in the type of a binder `(x : A)` of a λ."""
    depth, type_at = 0, None
    for t in words[begin:end]:
        if t is w:
            return type_at is not None
        if t.text in ('(', '{'):
            depth += 1
        elif t.text in (')', '}'):
            depth -= 1
            if type_at is not None and depth < type_at:
                type_at = None
        elif t.text == ':' and type_at is None:
            type_at = depth
    return False


class Function:
    """A function of src/: `ensures` and `requires` are the texts of its clauses."""

    def __init__(self, source, name, owner, public, line, ensures, requires):
        self.source, self.name, self.owner, self.public, self.line, self.ensures, self.requires = source, name, owner, public, line, ensures, requires

    def cited(self, clauses=None):
        cited = set()
        for text in self.ensures + self.requires if clauses is None else clauses:
            scan(tokens(text), set(), cited, set())
        return cited


def clauses_of(text):
    """(its word, its text, its first character, its last) of each clause of a function's text, and of what an `impl` says that a function of its trait gives."""
    for m in re.finditer(r'^ *(?:(ensures|requires)\*?(?: \w+)?|ghost \w+_gives =) \{', text, re.M):
        end, deep = m.end(), 1
        while deep:
            deep += (text[end] == '{') - (text[end] == '}')
            end += 1
        yield m[1] or 'ensures', text[m.end():end - 1], m.start(), end


class Source:
    """An .rt file; `code` is its text without comments and clauses; `tactics` what attributes hand to the prover: (module, name)."""

    def __init__(self, path, crate):
        self.path, self.crate, self.folder, self.module, self.function = path, crate, 'src', path.stem, False
        self.text = path.read_text()
        self.rows = self.text.split('\n')
        self.bare = re.sub(r'//.*', '', self.text).split('\n')
        self.library = path.name == 'lib.rt'
        self.imports, self.functions, self.types = [], [], {}
        self.local, self.members, self.by_name = {}, {}, {}
        number = 0
        while number < len(self.bare):
            row = self.bare[number]
            number += 1
            if re.match(r'\s*(pub )?(ghost )?use ', row):
                first = number
                while ';' not in row:
                    row += ' ' + self.bare[number]
                    number += 1
                ghost = row.strip().startswith('ghost')
                if ghost:
                    self.imports.append(import_of(row, first, number, False, True, len(row) - len(row.lstrip())))
                else:
                    m = re.match(r'\s*use ([\w:]+?)::(?:(\w+)|\{([^}]*)\})(?: as (\w+))?;', row)
                    if m:
                        names = [(m[2], m[4] or m[2])] if m[2] else [(w.split()[0], w.split()[-1]) for w in m[3].split(',') if w.strip()]
                        one = Import(m[1], names, None, first, number, False, False, 0)
                        one.code = True
                        self.imports.append(one)
        for i in self.imports:
            if i.ghost:
                for name, local in i.names:
                    self.local[local] = (i.module, name)
                if i.alias:
                    self.local[i.alias] = (i.module, None)
        self.read_functions()
        text = '\n'.join(self.bare)
        for m in re.finditer(r'^(pub )?(struct|enum|type) (\w+)', text, re.M):
            self.types[m[3]] = m[2]
        self.code = text
        for _, _, first, end in clauses_of(text):
            self.code = self.code[:first] + re.sub(r'[^\n]', ' ', text[first:end]) + self.code[end:]
        self.tactics = []
        for those in re.findall(r'#!?\[tactic\((.*)\)\]', text):
            for path in re.findall(r'[\w\']+(?:::[\w\']+)+', those):
                words = path.split('::')
                self.tactics.append(('.'.join(['Rattle', crate if words[0] == 'crate' else words[0], *words[1:-1]]), words[-1]))

    def read_functions(self):
        text = '\n'.join(self.bare)
        starts = [m.start() for m in re.finditer(r'\n', text)]
        owners = [(m.start(), m[1]) for m in re.finditer(r'^impl\b(?:[^{]*? for)? (\w+)', text, re.M)]
        traits = [(m.start(), m.end(), text.index('\n}', m.end())) for m in re.finditer(r'^impl\b[^{]* for [^{]*\{', text, re.M)]
        for m in re.finditer(r'^( *)(pub )?(?:extern "C" )?fn (\w+)', text, re.M):
            end = text.index('\n' + m[1] + '}', m.start()) if re.search(r'\{', text[m.start():]) else len(text)
            clauses = list(clauses_of(text[m.start():end]))
            ensures = [said for word, said, _, _ in clauses if word == 'ensures']
            requires = [said for word, said, _, _ in clauses if word == 'requires']
            within = next((begin for _, begin, last in traits if begin < m.start() < last), None)
            if within is not None:
                ensures += [said for _, said, first, _ in clauses_of(text[within:m.start()]) if '_gives' in text[within + first:within + first + 60]]
            owner = next((name for at, name in reversed(owners) if at < m.start()), None) if m[1] else None
            self.functions.append(Function(self, m[3], owner, bool(m[2]) or within is not None, bisect.bisect(starts, m.start()) + 1, ensures, requires))


class Crates:
    """All of crates/."""

    def __init__(self):
        self.depends = {}
        self.order = []
        for row in (top / 'crates.txt').read_text().split('\n'):
            m = re.match(LISTED, row)
            if m:
                self.depends[m[1]] = m[2].split()
                self.order.append(m[1])
        self.files, self.sources = {}, []
        for path in sorted(p for folder in ('specs', 'proofs') for p in top.glob('crates/*/%s/**/*.antt' % folder)):
            crate = path.relative_to(top).parts[1]
            f = File(path, crate)
            self.files[crate, f.folder, f.module] = f
        for path in sorted(top.glob('crates/*/src/**/*.rt')):
            self.sources.append(Source(path, path.relative_to(top).parts[1]))
        self.definitions = [d for f in self.files.values() for d in f.definitions]

    def file_of(self, module):
        """The file that a module path means, and what is left of the path."""
        m = re.match(r'Rattle\.(\w+)\.(specs|proofs)\.(.*)', module)
        if not m:
            return None, None
        words = m[3].split('.')
        for n in range(len(words), 0, -1):
            f = self.files.get((m[1], m[2], '.'.join(words[:n])))
            if f:
                return f, words[n:]
        return None, words

    def find(self, module, name, seen=()):
        """The definition that `name` of a module is: of its file, of what that hands on, or the type that a constructor or field belongs to."""
        f, rest = self.file_of(module)
        if not f or module in seen:
            return None
        if rest and f.by_name.get(rest[0]):
            return f.by_name[rest[0]][0]
        if name in f.by_name:
            return f.by_name[name][0]
        if name in f.members:
            return f.members[name]
        for i in f.imports:
            if i.public:
                for original, local in i.names:
                    if local == name:
                        return self.find(i.module, original, seen + (module,))
        return None

    def of_repository(self, module):
        """Whether a module path is of a crate of this repository."""
        m = re.match(r'Rattle\.(\w+)\.', module)
        return m is not None and m[1] in self.depends

    def home(self, module, name):
        """The module that a name of a module comes from, where that one only hands it on."""
        f, _ = self.file_of(module)
        for i in f.imports if f else ():
            if i.public and any(local == name for _, local in i.names):
                return i.module
        return module

    def meant(self, file, name, by=None):
        """The definitions that a cited name of a file may mean; several where several have it. A name in a pattern means a constructor or nothing."""
        if by == 'pattern':
            d = self.meant(file, name)
            return [x for x in d if x.kind == 'data']
        if by is not None:
            if by in file.local:
                module, original = file.local[by]
                d = self.find(module, name) if original is None else self.find(module + '.' + original, name) or self.find(module, original)
                return [d] if d else []
            return file.by_name.get(by, [])
        for one in (name, *operators(file, name)):
            if one in file.by_name:
                return file.by_name[one]
            if one in file.local:
                module, original = file.local[one]
                if original is not None:
                    d = self.find(module, original)
                    return [d] if d else []
                return []
            if one in file.members:
                return [file.members[one]]
        return []

    def cited_by(self, file, cited):
        found = []
        for name, by in cited:
            found += self.meant(file, name, by)
        return found


def operators(file, word):
    """The operators known in a file that have this word for a part."""
    if not hasattr(file, 'operators_by_part'):
        file.operators_by_part = collections.defaultdict(list)
        for name in list(file.local) + list(file.by_name):
            if '◌' in name:
                for part in parts(name):
                    file.operators_by_part[part].append(name)
    found = list(file.operators_by_part.get(word, ()))
    if '◌' in word:
        for part in parts(word):
            found += file.operators_by_part.get(part, ())
    return found


def said(crates, d, what=None):
    """The definitions that one cites, with the modules around it; of `d.stated` where only what it states counts."""
    return crates.cited_by(d.file, set(d.cited if what is None else what).union(*(m.cited for m in d.modules)))


def reached(crates, roots):
    """The definitions that these reach, themselves among them."""
    seen, todo = set(roots), list(roots)
    while todo:
        for other in said(crates, todo.pop()):
            if other not in seen:
                seen.add(other)
                todo.append(other)
    return seen


def named(crates, text, strict=False):
    """The definitions that a piece of a document names, and the files of which it names no definition: `crate/proofs/File`, and behind it `File` or `name` of that
    crate; `crate.name`; a public name alone, unless `strict`."""
    definitions, files, crate, folder = set(), {}, None, None
    by_crate = collections.defaultdict(list)
    for d in crates.definitions:
        if d.public and not d.file.function:
            by_crate[d.file.crate, d.name].append(d)
            by_crate[None, d.name].append(d)
    for word in re.findall(r'`([^`\s]+)`', text):
        m = re.fullmatch(r'(\w+)/(specs|proofs)/(\w+)', word)
        n = re.fullmatch(r"(\w+)\.([^./]+)", word)
        if m and m[1] in crates.depends:
            crate, folder = m[1], m[2]
            files[crates.files.get((crate, folder, m[3]), word)] = False
        elif crate and (crate, folder, word) in crates.files:
            files[crates.files[crate, folder, word]] = False
        elif n and n[1] in crates.depends:
            found = by_crate.get((n[1], n[2]), [])
            definitions.update(found)
            for f in crates.files.values():
                if f.crate == n[1] and f.module == n[2]:
                    files[f] = False
        elif re.fullmatch(r'(specs|proofs)/(\w+)', word):
            pass
        else:
            found = [d for d in by_crate.get((crate, word), []) if d.file in files] or by_crate.get((crate, word)) or ([] if strict else by_crate.get((None, word), []))
            definitions.update(found)
            for d in found:
                files.setdefault(d.file, True)
                files[d.file] = True
    return definitions, [f for f, taken in files.items() if not taken]


def pieces(text):
    """The rows of tables, the points of lists and the paragraphs of a document."""
    return re.split(r'\n(?=\||- |\n|#)', text)


def theorems(crates):
    """The definitions that the rows of PROOFS's table of theorems name; of a file that is named alone, what is public in it."""
    text = (top / 'docs/PROOFS.md').read_text()
    table = re.search(r'^## The theorems\n(.*?)(?=^## )', text, re.M | re.S)[1]
    found = set()
    for piece in pieces(table):
        definitions, files = named(crates, piece, True)
        found |= definitions
        for f in files:
            if isinstance(f, File):
                found.update(d for d in f.definitions if d.public)
    return found
