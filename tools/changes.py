"""Small changes of definitions: each changes one place of a file of specs, so that it says something else.

A comparison turned, a number off by one, one operation, name, field or variable for a neighbour of its type, operands, arguments
or items exchanged or dropped, one branch for both, the right-hand side of a neighbouring clause, a field of a statement or a
premise dropped. What is made so may be ill-typed: the prover says that.
"""
import collections
import re

TOKEN = re.compile(r"\s+|--[^\n]*|[(){};,]|\[\]|(?<=[\w')])\.[\w']+|[^\s(){};,.]+|\.")
CLOSING = {'(': ')', '{': '}'}
# from those that bind least; λ and let reach to the end
LEVELS = [{'→'}, {'×'}, {'≡', '≤', '<'}, {'||'}, {'&&'}, {'∷', '++'}, {'sends', 'by'}, {'+', '-'}, {'*', '/', '%'}]
OTHER = {'+': '-', '-': '+', '*': '+', '/': '%', '%': '/', '&&': '||', '||': '&&', '≤': '<', '<': '≤'}
DROPPED = {'+', '*', '&&', '||', '++', '∷', '×'}   # either operand may be dropped
FIRST_KEPT = {'-', '/', '%'}                      # the second may
EXCHANGED = {'-', '/', '%', '++', '∷', '<', '≤'}
FAMILIES = [['ltb', 'leb', 'eqb'], ['take', 'drop'], ['true', 'false'], ['allowed', 'barred']]
# what the kit's library takes, as far as two of its arguments may have one type
LIBRARY = {
    'get_or': 'List A → ℕ → ℕ → ℕ', 'set': 'List A → ℕ → ℕ → List A', 'replicate': 'ℕ → ℕ → List ℕ', 'ltb': 'ℕ → ℕ → Bool', 'leb': 'ℕ → ℕ → Bool',
    'cond': 'Bool → A → A → A', 'suc': 'ℕ → ℕ', 'not': 'Bool → Bool', 'zero': 'ℕ', 'true': 'Bool',
    'false': 'Bool',
}
KEYWORDS = {'abbrev', 'unfoldable', 'pub', 'record', 'data', 'use', 'infix', 'infixr', 'infixl', 'module', 'unfolding'}
NAME = re.compile(r"[A-Za-z_][\w'?-]*")

# A change of a text: where it starts and ends, what stands there instead, what was done in words, and 'weaker' where a
# statement is made to say less.
Change = collections.namedtuple('Change', 'start end new what effect')


def items_of(text):
    """The items of a file, each a first line that is not indented and the indented lines below it, with their starts."""
    found = [m.start() for m in re.finditer(r'^(?=[^\s)}-])', text, re.M)]
    for start, end in zip(found, found[1:] + [len(text)]):
        body = text[start:end]
        # without the comments before the next item
        while (last := body.rstrip('\n').rfind('\n')) > 0 and re.match(r'--|\s*$', body[last + 1:]):
            body = body[:last + 1]
        yield start, body.rstrip('\n')


# A module's first line, or lines, and the indented lines below it.
MODULE = re.compile(r'^module\b(?:.*\n)??.*\bwhere\n((?:(?:  .*)?\n|  .*$)*)', re.M)


def modules_of(text):
    """What stands in each module of a file, not indented, with the place in the file of each place in it."""
    for found in MODULE.finditer(text):
        lines, places, at = [], [], found.start(1)
        for line in found[1].splitlines(keepends=True):
            cut = 2 if line.startswith('  ') else 0
            lines.append(line[cut:])
            places += range(at + cut, at + len(line))
            at += len(line)
        yield ''.join(lines), [*places, at]


def signature_of(item):
    """The name that an item declares and its type as written, or None."""
    found = re.match(r'(?:abbrev|unfoldable) (?:pub )?(\S+) : (.*)', item, re.S)
    return (found[1], ' '.join(found[2].split())) if found else None


def block_of(item):
    """The fields or constructors of a record or a data type: start within the item, name, type as written."""
    for found in re.finditer(r"^  (?:pub )?([\w'-]+) : (.*(?:\n   .*)*)", item, re.M):
        yield found.start(), found[1], found[2]


def types_in(of_type):
    """The types of a function's explicit arguments and of its result, as written."""
    parts, depth, word = [], 0, ''
    for piece in re.split(r'([(){}]|→)', of_type):
        depth += (piece in '({') - (piece in ')}') if piece else 0
        if piece == '→' and depth == 0:
            parts.append(word.strip())
            word = ''
        else:
            word += piece
    return [part for part in parts if not part.startswith('{')] + [word.strip()]


class Names:
    """Of each name its type, and its neighbours: what is declared with the same type just before and just after it."""

    def __init__(self, texts):
        self.neighbours = collections.defaultdict(list)
        self.fields = collections.defaultdict(list)
        self.types = {name: types_in(of_type) for name, of_type in LIBRARY.items()}
        self.declared, self.statements = set(), set()
        by_type = collections.defaultdict(list)
        for family in FAMILIES:
            self.add(self.neighbours, family)
        texts = list(texts)
        # it grows: modules stand in modules
        for text in texts:
            texts += [inner for inner, _ in modules_of(text)]
            for _, item in items_of(text):
                if signature := signature_of(item):
                    by_type[signature[1]].append(signature[0])
                    self.declared.add(signature[0])
                    self.types[signature[0]] = types_in(signature[1])
                    if signature[1].endswith('Type 0'):
                        self.statements.add(signature[0])
                elif head := re.match(r'pub (record|data) (\w+)( \()?', item):
                    block = collections.defaultdict(list)
                    for _, name, of_type in block_of(item):
                        block[of_type].append(name)
                        if head[1] == 'data':
                            self.declared.add(name)
                            self.types[name] = types_in(of_type)
                    if head[3]:
                        self.statements.add(head[2])
                    for names in block.values():
                        self.add(self.fields if head[1] == 'record' else self.neighbours, names)
        for names in by_type.values():
            self.add(self.neighbours, names)

    def add(self, into, names):
        for one, other in zip(names, names[1:]):
            into[one].append(other)
            into[other].append(one)


class Expression:
    """The changes of an expression, which stands in a text from `start` to `end`, with variables in scope."""

    def __init__(self, text, start, end, names, variables):
        self.text, self.names, self.variables = text, names, dict(variables)
        self.tokens = [(m[0], m.start(), m.end()) for m in TOKEN.finditer(text, start, end) if not m[0].isspace() and not m[0].startswith('--')]
        self.match, stack = {}, []
        for i, (token, _, _) in enumerate(self.tokens):
            if token in CLOSING:
                stack.append(i)
            elif token in CLOSING.values():
                self.match[stack.pop()] = i
        self.changes = []

    def of(self, lo, hi):
        return self.text[self.tokens[lo][1]:self.tokens[hi - 1][2]]

    def put(self, lo, hi, new, what, effect=''):
        if new != self.of(lo, hi):
            self.changes.append(Change(self.tokens[lo][1], self.tokens[hi - 1][2], new, what, effect))

    def at_this_level(self, lo, hi):
        """The tokens outside parentheses, up to a λ or a let, which reach to the end."""
        i = lo
        while i < hi:
            if self.tokens[i][0] in ('λ', 'let'):
                return
            yield i
            i = self.match.get(i, i) + 1

    def visit(self, lo, hi, sign=1):
        if lo >= hi:
            return
        word = self.tokens[lo][0]
        if word in ('let', 'λ'):
            stop = next(i for i in range(lo, hi) if self.tokens[i][0] == ('in' if word == 'let' else '.'))
            if word == 'let':
                equals = next(i for i in range(lo, stop) if self.tokens[i][0] == '=')
                self.visit(equals + 1, stop)
                self.variables[self.tokens[lo + 1][0]] = 'let'
            else:
                self.variables |= {t: 'λ' for t, _, _ in self.tokens[lo + 1:stop] if NAME.fullmatch(t)}
            self.visit(stop + 1, hi, sign)
            return
        for level in LEVELS:
            cuts = [i for i in self.at_this_level(lo, hi) if self.tokens[i][0] in level]
            if cuts:
                self.operation(lo, hi, cuts, sign)
                return
        self.application(lo, hi, sign)

    def operation(self, lo, hi, cuts, sign):
        parts = list(zip([lo] + [c + 1 for c in cuts], cuts + [hi]))
        for n, (a, b) in enumerate(parts):
            last = n == len(parts) - 1
            if self.tokens[cuts[0]][0] == '→':
                if self.binder(a, b):
                    continue
                if not last and not self.is_data(a, b):
                    self.drop(parts, n, 'premise dropped', 'stronger' if sign > 0 else 'weaker')
                self.visit(a, b, sign if last else -sign)
            else:
                self.visit(a, b, sign)
        for n, cut in enumerate(cuts):
            op = self.tokens[cut][0]
            (a, b), (c, d) = parts[n], parts[n + 1]
            to_end = n == len(cuts) - 1
            if op in OTHER:
                effect = ''
                if op in '≤<':
                    effect = 'weaker' if (op == '<') == (sign > 0) else 'stronger'
                self.put(cut, cut + 1, OTHER[op], f'{OTHER[op]} for {op}', effect)
            if op in EXCHANGED and not (op == '∷' and to_end):
                between = self.text[self.tokens[b - 1][2]:self.tokens[c][1]]
                self.put(a, d, self.of(c, d) + between + self.of(a, b), 'exchanged')
            if op in DROPPED:
                effect = ('weaker' if sign > 0 else 'stronger') if op == '×' else ''
                self.drop(parts, n, 'dropped', effect)
                if to_end and op != '∷':
                    self.put(a, d, self.of(a, b), 'dropped', effect)
            elif op in FIRST_KEPT:
                self.put(a, d, self.of(a, b), 'dropped')

    def drop(self, parts, n, what, effect):
        (a, _), (c, d) = parts[n], parts[n + 1]
        self.put(a, d, self.of(c, d), what, effect)

    def binder(self, lo, hi):
        """Whether this is (x y : T), or several of them: then x and y are variables."""
        while lo < hi:
            end = self.match.get(lo, lo)
            inside = [t for t, _, _ in self.tokens[lo + 1:end]]
            if ':' not in inside:
                return False
            colon = inside.index(':')
            self.variables |= dict.fromkeys(inside[:colon], ' '.join(inside[colon + 1:]))
            lo = end + 1
        return True

    def is_data(self, lo, hi):
        return all(t in ('ℕ', 'List', 'Bool', '(', ')') for t, _, _ in self.tokens[lo:hi])

    def application(self, lo, hi, sign):
        atoms, i = [], lo
        while i < hi:
            stop = self.match.get(i, i) + 1
            if self.tokens[i][0] in ('λ', 'let'):
                stop = hi
            elif self.tokens[i][0] == 'record' and i + 1 in self.match:
                stop = self.match[i + 1] + 1
            # a projection belongs to the atom before it
            while stop < hi and self.is_projection(stop):
                stop += 1
            atoms.append((i, stop))
            i = stop
        for a, b in atoms:
            self.atom(a, b, sign)
        arguments = atoms[1:]
        head = self.of(*atoms[0])
        types = self.names.types.get(head, [])
        for n, (a, b) in enumerate(arguments):
            for m, (c, d) in enumerate(arguments[n + 1:], n + 1):
                if m < len(types) - 1 and types[n] == types[m]:
                    between = self.text[self.tokens[b - 1][2]:self.tokens[c][1]]
                    self.put(a, d, self.of(c, d) + between + self.of(a, b), 'arguments exchanged')
        if head == 'cond' and len(arguments) == 3:
            for a, b in arguments[1:]:
                self.put(lo, arguments[2][1], self.of(a, b), 'one branch for both')
        elif len(arguments) == 1 and len(atoms) == 2 and len(types) == 2 and types[0] == types[1]:
            self.put(lo, hi, self.of(*arguments[0]), f'{head} left out')

    def is_projection(self, i):
        return re.fullmatch(r"\.[\w']+", self.tokens[i][0]) is not None

    def atom(self, lo, hi, sign):
        token = self.tokens[lo][0]
        while hi - 1 > lo and self.is_projection(hi - 1):
            hi -= 1
            for other in dict.fromkeys(self.names.fields[self.tokens[hi][0][1:]]):
                self.put(hi, hi + 1, '.' + other, f'{other} for {self.tokens[hi][0][1:]}')
        if token == '(':
            self.visit(lo + 1, hi - 1, sign)
        elif token == 'record':
            self.literal(lo + 1, hi)
        elif token in ('λ', 'let'):
            self.visit(lo, hi, sign)
        elif token.isdigit():
            for other in (int(token) + 1, int(token) - 1):
                if other >= 0:
                    self.put(lo, hi, str(other), f'{token} is {other}')
        elif token in self.variables:
            alike = [name for name, of_type in self.variables.items() if of_type == self.variables[token]]
            at = alike.index(token)
            for other in alike[max(0, at - 1):at] + alike[at + 1:at + 2]:
                self.put(lo, hi, other, f'{other} for {token}')
        else:
            for other in self.names.neighbours[token]:
                # in scope: used or declared before
                if re.search(rf'(?<![\w-]){re.escape(other)}(?![\w-])', self.text[:self.tokens[lo][1]]):
                    self.put(lo, hi, other, f'{other} for {token}')

    def literal(self, lo, hi):
        """record { name = value; .. }: the values, and two neighbouring ones exchanged."""
        ends = [i for i in self.at_this_level(lo + 1, hi - 1) if self.tokens[i][0] == ';'] + [hi - 1]
        values, start = [], lo + 1
        for end in ends:
            if end > start:
                values.append((self.tokens[start][0], start + 2, end))
            start = end + 1
        for n, (name, a, b) in enumerate(values):
            self.visit(a, b)
            for other, c, d in values[n + 1:n + 2]:
                if other not in self.names.fields[name]:
                    continue
                between = self.text[self.tokens[b - 1][2]:self.tokens[c][1]]
                self.put(a, d, self.of(c, d) + between + self.of(a, b), 'values exchanged')


def variables_of(patterns, types, names):
    """The variables of a clause's patterns, with their types as far as they can be seen."""
    found, tokens = {}, [m[0] for m in TOKEN.finditer(patterns) if not m[0].isspace()]
    for part in types:
        if not tokens:
            break
        inside = [tokens.pop(0)]
        while inside.count('(') > inside.count(')'):
            inside.append(tokens.pop(0))
        inside = [token for token in inside if token not in '()']
        if len(inside) == 1:
            of_each = [part]
        elif '∷' in inside:
            of_each = []
            for token in inside:
                if token in names.types and token != '∷':
                    found |= dict(zip(inside[inside.index(token) + 1:], names.types[token][:-1]))
            items = [token for token in inside if token != '∷' and token not in names.types and token not in found]
            found |= dict.fromkeys(items[:-1], part.removeprefix('List ').strip('()')) | {items[-1]: part} if items else {}
            continue
        else:
            of_each = ['constructor'] + names.types.get(inside[0], ['ℕ'])
        found |= dict(zip(inside, of_each))
    return {name: of_type for name, of_type in found.items() if NAME.fullmatch(name) and name not in names.types and of_type != 'constructor'}


def of_clauses(text, clauses, names):
    """The changes of a function's clauses, each a start and an item 'name patterns = right-hand side'."""
    sides = []
    for start, item in clauses:
        equals = re.search(r'\s=\s', item)
        name, _, patterns = item[:equals.start()].partition(' ')
        # an operation's name stands between its arguments
        if name not in names.types:
            name, patterns = next((f'◌{op}◌', f'{name} {rest}') for op, rest in [patterns.split(' ', 1)])
        variables = variables_of(patterns, names.types.get(name, [])[:-1], names)
        sides.append((start + equals.end(), start + len(item), variables))
        expression = Expression(text, *sides[-1][:2], names, variables)
        expression.visit(0, len(expression.tokens))
        yield from expression.changes
        for found in re.finditer(r"\((\w+) ([a-z]\w*) ([a-z]\w*)\)", item[:equals.start()]):
            yield Change(start + found.start(2), start + found.end(3), f'{found[3]} {found[2]}', 'exchanged in the pattern', '')
    for (a, b, here), (c, d, there) in zip(sides, sides[1:]):
        one, other = text[a:b].strip(), text[c:d].strip()
        if one != other:
            there_fits = not set(NAME.findall(other)) & (set(there) - set(here))
            here_fits = not set(NAME.findall(one)) & (set(here) - set(there))
            if there_fits:
                yield Change(a, b, other, "the next clause's", '')
            if here_fits:
                yield Change(c, d, one, "the clause's before", '')
            if here_fits and there_fits:
                yield Change(a, d, other + text[b:c] + one, 'two clauses exchanged', '')


def of_record(text, start, item, names):
    """The changes of the fields of a record that are statements."""
    head = item[:item.index('where')]
    scope = {word: of_type for group, of_type in re.findall(r'\(([^():]+) : ([^()]+)\)', head) for word in group.split()}
    for at, name, of_type in block_of(item):
        begin = start + at + item[at:].index(of_type)
        expression = Expression(text, begin, begin + len(of_type), names, scope)
        words = {t for t, _, _ in expression.tokens}
        if words & {'≡', '≤', '<', '⊥'} or words & names.statements:
            expression.visit(0, len(expression.tokens))
            yield from expression.changes
            yield Change(start + at, begin + len(of_type), '', f'field {name} dropped', 'weaker')
        elif of_type == 'ℕ':
            scope[name] = 'ℕ'


def changes_of(text, names):
    """Every change of a file of definitions."""
    clauses = []
    for start, item in items_of(text):
        first = NAME.match(item) or re.match(r'\S+', item)
        if clauses and (first[0] in KEYWORDS or first[0] != re.match(r'\S+', clauses[0][1])[0]):
            yield from of_clauses(text, clauses, names)
            clauses = []
        if re.match(r'pub record', item) and 'where' in item:
            yield from of_record(text, start, item, names)
        elif first[0] not in KEYWORDS:
            clauses.append((start, item))
    if clauses:
        yield from of_clauses(text, clauses, names)
    for inner, places in modules_of(text):
        for change in changes_of(inner, names):
            yield change._replace(start=places[change.start], end=places[change.end - 1] + 1, new=change.new.replace('\n', '\n  '))
