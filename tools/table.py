#!/usr/bin/env python3
"""table.py: makes the matcher's table from the grammar. Run it after a change of specs/Asn.antt, Types.antt (syntax_of) or Contract/Forms.antt
of crates/syntax, and then `rt fmt` in crates/syntax.

It reads those files and writes src/table.rt (the constant array), specs/Contract/Table.antt (the same rows as data) and proofs/Ties.antt (the rows
of the named types and of the forms stand for them). A row names only rows above it, and equal rows are one. What a row stands for is said by
specs/Contract/Rows.antt.
"""
import re
import common

CRATE = common.path('crates', 'syntax', '')
FIELDS = {'optional': 'Optional', 'required': 'Required', 'one': 'One', 'any_optional': 'AnyOptional'}
RULES = {'not_empty': 'NotEmpty', 'size_to': 'SizeTo', 'empty': 'Empty', 'equals': 'Equals', 'equals given': 'EqualsGiven', 'integer_but': 'IntegerBut',
         'seq_number': 'SeqNumber'}
WITH_NUMBER = ['size_to', 'integer_but']
WITH_OCTET = ['equals']


# -- reading

def definitions(path):
    """name -> (whether public, parameters, body), for a definition by one clause; and name -> (patterns, body) of each clause"""
    text = re.sub(r'--.*', '', open(path).read())
    single, clauses = {}, {}
    for block in re.split(r'\n(?=\S)', text):
        found = re.match(r'(?:unfoldable |abbrev )?(pub )?(\S+) :\s', block)
        if found:
            name, public = found.group(2), bool(found.group(1))
            continue
        found = re.match(r'(\S+)((?: [^=\n]*?)?) =\s(.*)', block, re.S)
        if found and found.group(1) == name:
            parameters = found.group(2).split()
            single[name] = (public, parameters, parse(found.group(3)))
            clauses.setdefault(name, []).append((found.group(2).strip(), parse(found.group(3))))
    return single, clauses


def parse(text):
    """a term: a name, a number, or a list of a head and its arguments"""
    tokens = re.findall(r'[()]|[^\s()]+', text)
    def term(i):
        parts = []
        while i < len(tokens) and tokens[i] != ')':
            if tokens[i] == '(':
                part, i = term(i + 1)
            else:
                part = tokens[i]
            parts.append(part)
            i += 1
        return (parts[0] if len(parts) == 1 else parts), i
    return term(0)[0]


def fields(path):
    """type -> names of its fields or alternatives, from the ASN.1 in the comments"""
    text = ' '.join(re.findall(r'^-- ?(.*)$', open(path).read(), re.M))
    found = {}
    for at in re.finditer(r'(\S+) ::= (?:SEQUENCE|CHOICE) \{', text):
        depth, i, parts = 1, at.end(), ['']
        while depth:
            c = text[i]
            depth += (c == '{') - (c == '}')
            if c == ',' and depth == 1:
                parts.append('')
            else:
                parts[-1] += c
            i += 1
        found[at.group(1)] = [p.split()[0] for p in parts]
    return found


# -- expanding a term to a tree of rows

class Node:
    def __init__(self, kind, arg=0, body=None, next=None, type=None):
        self.kind, self.arg, self.body, self.next, self.type = kind, arg, body, next, type


class Grammar:
    def __init__(self, single):
        self.single = single

    def number(self, term, env):
        while term in env:
            term, env = env[term]
        return int(term, 0)

    def tree(self, term, env, name=None):
        head, args = (term[0], term[1:]) if isinstance(term, list) else (term, [])
        if head in env:
            inner, outer = env[head]
            return self.tree(inner, outer)
        if head == 'free':
            return Node('free')
        if head in ('end', 'no_other'):
            return Node('end')
        if head in ('optional', 'required', 'alternative'):
            return Node('required' if head == 'required' else 'optional', self.number(args[0], env), self.tree(args[1], env), self.tree(args[2], env))
        if head == 'tagged':
            return Node('optional', self.number(args[0], env), self.tree(args[1], env), Node('end'))
        if head == 'one':
            body, following = self.tree(args[0], env), self.tree(args[1], env)
            if body.type and body.kind == 'optional' and body.next.kind == 'end':
                # a CHOICE with one alternative
                return Node('required', body.arg, body.body, following)
            return Node('one', 0, body, following)
        if head == 'any_optional':
            return Node('any_optional', 0, None, self.tree(args[0], env))
        if head == 'many':
            return Node('many', 0, self.tree(args[0], env))
        if head == 'obeys':
            rule, arg = self.rule(args[0], env)
            return Node(rule, arg, self.tree(args[1], env))
        public, parameters, body = self.single[head]
        assert len(parameters) == len(args), head
        node = self.tree(body, {p: (a, env) for p, a in zip(parameters, args)}, name or head)
        if head[0].isupper():
            node.type = name or head
        return node

    def rule(self, term, env):
        head, args = (term[0], term[1:]) if isinstance(term, list) else (term, [])
        if head == 'equals' and isinstance(args[0], list) and args[0][1:] == ['∷', '[]']:
            return 'equals', self.number(args[0][0], env)
        if head == 'equals':
            return 'equals given', 0
        return head, (self.number(args[0], env) if args else 0)


# -- rows

class Table:
    def __init__(self, names):
        self.rows, self.labels, self.number, self.names = [], [], {}, names
        self.add(Node('free'), '', [], 0)
        self.add(Node('end'), '', [], 0)

    def add(self, node, type, fields, i):
        """the row of a tree whose place is the i-th field of a type"""
        if node is None:
            return 0
        if node.type:
            known = next((self.names[n] for n in (node.type, node.type.removesuffix('SignedData')) if n in self.names), None)
            if known or not type:
                type, fields, i = node.type, known or [], 0
        spine, n = node, 0
        while spine and spine.kind in FIELDS:
            spine, n = spine.next, n + 1
        if fields and i == 0 and n != len(fields):
            # the element around the fields
            label, body, following = type, self.add(node.body, type, fields, 0), self.add(node.next, type, [], 0)
        else:
            label = type + ('.' + fields[i] if i < len(fields) else '')
            body = self.add(node.body, label, [], 0)
            following = self.add(node.next, type, fields, i + 1)
        row = (node.kind, node.arg, body, following)
        if row not in self.number:
            assert len(self.rows) < 256, 'a row number is one octet'
            self.number[row] = len(self.rows)
            self.rows.append(row)
            self.labels.append((node.kind, []))
        n = self.number[row]
        if label and label not in self.labels[n][1]:
            self.labels[n][1].append(label)
        return n

    def comment(self, n):
        """the kind of a row in one word, and the fields that it stands in; the first two rows stand in most"""
        kind, labels = self.labels[n]
        return f'{n}: {kind}' + (' in ' + ', '.join(labels) if n > 1 else '')


def shown(row, call, names):
    """a row as a value: call writes a variant with its arguments, names is what stands before a name of a field or of a rule"""
    kind, arg, body, following = row
    if kind in FIELDS:
        return call('Field', [names[0] + FIELDS[kind], f'0x{arg:02X}', body, following])
    if kind in RULES:
        number = [str(arg)] if kind in WITH_NUMBER else [f'0x{arg:02X}'] if kind in WITH_OCTET else []
        return call('Obeys', [call(RULES[kind], number, names[1]), body])
    return call(kind.capitalize(), [body] if kind == 'many' else [])


def in_code(name, arguments, before='Row::'):
    return before + name + ('(' + ', '.join(str(a) for a in arguments) + ')' if arguments else '')


def in_spec(name, arguments, before='row.'):
    whole = ' '.join([before + name] + [str(a) for a in arguments])
    return f'({whole})' if arguments and before != 'row.' else whole


def main():
    single, _ = definitions(CRATE + 'specs/Asn.antt')
    _, messages = definitions(CRATE + 'specs/Types.antt')
    _, forms = definitions(CRATE + 'specs/Contract/Forms.antt')
    names = fields(CRATE + 'specs/Asn.antt')
    grammar, table, ties = Grammar(single), Table(names), []

    def row(term, label=''):
        return table.add(grammar.tree(term, {}), label, [], 0)

    for name, (public, parameters, body) in single.items():
        if public and not parameters and name[0].isupper():
            ties.append((name, row(name)))
    message_rows = [(p, row(body)) for p, body in messages['syntax_of']]
    form_rows = [(p, row(body, '' if isinstance(body, str) else p.split('.')[1])) for p, body in forms['form_syntax'] if p != '(form.Message kind)']
    attribute_rows = [(p.split()[0], row(body, p.split()[0].split('.')[1] + ' attribute')) for p, body in forms['attribute_syntax']]

    count = len(table.rows)
    note = 'Made by tools/table.py from specs/Asn.antt and specs/Contract/Forms.antt: change those, not this file.'

    def constant(name):
        return re.sub(r'(?<=[a-z])(?=[A-Z])|(?<=[A-Z])(?=[A-Z][a-z])', '_', name.split('.')[-1]).upper()

    rt = [f'// {note}', 'use crate::row::{Kind, Row, Rule};', '', '// specs/Contract/Rows.antt says what a row stands for.',
          f'pub type Table = [Row; {count}];', '', 'pub static ROWS: Table = [']
    for n, row in enumerate(table.rows):
        rt += [f'    // {table.comment(n)}', '    ' + shown(row, in_code, ['Kind::', 'Rule::']) + ',']
    rt += ['];', '', '// The row of each form.']
    for name, n in [(constant(p), n) for p, n in form_rows + message_rows] + [(constant(p) + '_ATTRIBUTE', n) for p, n in attribute_rows]:
        rt += [f'pub const {name}: u8 = {n};', '']
    rt.pop()
    write('src/table.rt', rt)

    variants = '{' + ', '.join(p for p, _ in message_rows) + '}'
    declared = ['use Rattle.syntax.specs.declared.TampType.{TampType}',
                f'use Rattle.syntax.specs.declared.TampType.TheVariants.{variants}',
                'use Rattle.syntax.specs.declared.Form.{Form}',
                'use Rattle.syntax.specs.declared.Form.TheVariants as form',
                'use Rattle.syntax.specs.declared.AttributeForm.{AttributeForm}',
                'use Rattle.syntax.specs.declared.AttributeForm.TheVariants as attribute']
    typed = ['use Rattle.syntax.specs.declared.row.Row.{Row}',
             'use Rattle.syntax.specs.declared.row.Row.TheVariants as row',
             'use Rattle.syntax.specs.declared.row.Kind.TheVariants as kind',
             'use Rattle.syntax.specs.declared.row.Rule.TheVariants as rule']
    spec = [f'-- {note}', '-- The rows of src/table.rt as data, and the row of each form.',
            'use Rattle.std.specs.Prelude.{ℕ, List, [], ◌∷◌}'] + typed + declared
    spec += ['', 'abbrev pub count : ℕ', f'count = {count}', '', 'unfoldable pub rows : List Row', 'rows =']
    for n, row in enumerate(table.rows):
        spec.append('    ' + ('∷ ' if n else '') + shown(row, in_spec, ['kind.', 'rule.']) + f'  -- {table.comment(n)}')
    spec += ['    ∷ []', '', 'abbrev pub message_row : TampType → ℕ']
    spec += [f'message_row {p} = {n}' for p, n in message_rows]
    spec += ['', 'abbrev pub form_row : Form → ℕ']
    spec += [f'form_row {p} = {n}' for p, n in form_rows] + ['form_row (form.Message kind) = message_row kind']
    spec += ['', 'abbrev pub attribute_row : AttributeForm → ℕ']
    spec += [f'attribute_row {p} = {n}' for p, n in attribute_rows]
    write('specs/Contract/Table.antt', spec)

    # the one type whose rule takes the caller's octets is a form, and tied there
    ties = [(name, n) for name, n in ties if name != 'ContentInfoSignedData']
    names = [name for name, _ in ties]
    proof = [f'-- {note}', '-- Each named type, and each form, is what its row stands for. A stale table fails here.',
             'use Prim.Native.Nat.{ℕ}', 'use mathlib.Core.List.{List, [], ◌∷◌, map}', 'use mathlib.Core.Path.{◌≡◌, refl}'] + declared
    proof += ['use Rattle.syntax.specs.Asn.{' + ', '.join(part) + '}' for part in chunks(['id_signed_data'] + names, 6)]
    proof += ['use Rattle.syntax.specs.Types.{syntax_of}', 'use Rattle.syntax.specs.Contract.Forms.{form_syntax, attribute_syntax}',
              'use Rattle.syntax.specs.Contract.Table.{rows, message_row, form_row, attribute_row}',
              'use Rattle.syntax.specs.Contract.Rows.{rule_of, field_syntax, row_syntax, grown, grammar_of}', '']
    opened = 'unfolding rows rule_of field_syntax row_syntax grown'
    proof += ['types_are : (o : List ℕ) → map (grammar_of o)', '    (' + ' ∷ '.join(str(n) for _, n in ties) + ' ∷ [])', '    ≡']
    proof += ['    ' + ('∷ ' if i else '') + ' ∷ '.join(part) for i, part in enumerate(chunks(names, 6))]
    proof += ['    ∷ []', opened, 'types_are o = refl', '']
    proof += ['pub message_is : (o : List ℕ) (kind : TampType) → grammar_of o (message_row kind) ≡ syntax_of kind', opened + ' syntax_of']
    proof += [f'message_is o {p} = refl' for p, _ in message_rows]
    proof += ['', 'pub form_is : (f : Form) → grammar_of id_signed_data (form_row f) ≡ form_syntax f', opened + ' form_syntax']
    proof += [f'form_is {p} = refl' for p, _ in form_rows] + ['form_is (form.Message kind) = message_is id_signed_data kind']
    proof += ['', 'pub attribute_is : (o : List ℕ) (f : AttributeForm) → grammar_of o (attribute_row f) ≡ attribute_syntax f o',
              opened + ' attribute_syntax']
    proof += [f'attribute_is o {p} = refl' for p, _ in attribute_rows]
    write('proofs/Ties.antt', proof)
    print(f'{count} rows, {len(ties)} types')


def chunks(l, n):
    return [l[i:i + n] for i in range(0, len(l), n)]


def write(name, lines):
    open(CRATE + name, 'w').write('\n'.join(lines) + '\n')


main()
