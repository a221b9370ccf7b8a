"""Every one-token mutant of the crates' code, contracts and definitions that keeps its file's types, as far as the text shows them."""
import re
from collections import namedtuple
from functools import lru_cache

Mutant = namedtuple("Mutant", "crate file line column start old new kind")
Token = namedtuple("Token", "text start")
Decl = namedtuple("Decl", "args result start owner")  # owner: the record of a field, else None
Function = namedtuple("Function", "name owner params result body contracts")  # owner: the type of a method; contracts: where the clauses lie

# What the libraries offer under the same type; an operator `o` is imported as `◌o◌`.
FAMILIES = ["&& ||", "+ - *", "/ %", "< ≤", "ltb leb eqb", "bit_and bit_or bit_xor", "true false", "take drop"]
OPERATORS = ["== !=", "< <=", "> >=", "&& ||", "| &", "^ |", "+ -", "* +", "/ %", "<< >>", "+= -=", "true false"]
OPENING, CLOSING = "([{", ")]}"
ANTT = re.compile(r"--[^\n]*|[(){}\[\];,]|\.(?=[^\W\d])[^\s(){}\[\];,.]+|(?:[^\s(){}\[\];,.]|\.(?![^\W\d]))+")
CODE = re.compile(r"//[^\n]*|b?\"(?:\\.|[^\"\\])*\"|[A-Za-z_]\w*|\d\w*|'[a-z]\w*|=>|->|::|\.\.|&&|\|\||<<|>>|[<>=!+*/%&|^-]=|\S")
USE = re.compile(r"^(?:ghost )?use ([^\s{]+)\.\{([^}]*)\}", re.M)
OURS = re.compile(r"Rattle\.(\w+)\.specs\.(\w+)$")


def tokens_of(pattern, text, start=0, end=None):
    found = pattern.finditer(text, start, len(text) if end is None else end)
    return [Token(m.group(), m.start()) for m in found if not m.group().startswith(("--", "//"))]


def texts(tokens):
    return " ".join(t.text for t in tokens)


def split(tokens, separator):
    """The runs of tokens between separators that stand in no bracket."""
    parts, depth = [[]], 0
    for t in tokens:
        depth += (t.text in OPENING) - (t.text in CLOSING)
        if t.text == separator and depth == 0:
            parts.append([])
        else:
            parts[-1].append(t)
    return parts


def matching(tokens, k):
    """The place of the bracket that closes the one at k."""
    depth = 0
    for j in range(k, len(tokens)):
        depth += (tokens[j].text in OPENING) - (tokens[j].text in CLOSING)
        if depth == 0:
            return j
    return len(tokens) - 1


def atoms(tokens):
    """Single words and whole bracket groups."""
    parts, k = [], 0
    while k < len(tokens):
        end = matching(tokens, k) if tokens[k].text in OPENING else k
        parts.append(tokens[k : end + 1])
        k = end + 1
    return parts


# ---- definitions: types and scopes


def bound(group):
    """The names and the type of a binder group such as (a b : T); no names if it is none."""
    sides = split(group[1:-1], ":") if group and group[0].text in "({" else []
    return ([t.text for t in sides[0]], texts(sides[1])) if len(sides) == 2 else ([], "")


def arrows(tokens):
    """The explicit argument types and the result type of a signature."""
    *before, last = split(tokens, "→")
    args = []
    for groups in map(atoms, before):
        if bound(groups[0])[0]:
            args += [kind for g in groups if g[0].text == "(" for names, kind in [bound(g)] for _ in names]
        else:
            args.append(" ".join(map(texts, groups)))
    return tuple(args), texts(last)


def blocks(text, start, end):
    """The blocks of a stretch of lines: a line at the least indentation and the deeper lines under it."""
    lines, at = [], start
    for line in text[start:end].splitlines(True):
        bare = line.strip()
        if bare and not bare.startswith("--"):
            lines.append((at, len(line) - len(line.lstrip())))
        at += len(line)
    least = min((depth for _, depth in lines), default=0)
    heads = [at for at, depth in lines if depth == least]
    return list(zip(heads, heads[1:] + [end]))


Block = namedtuple("Block", "kind name tokens body variables")  # body: the tokens that may be mutated


def first_of(tokens, *marks):
    """The first place outside brackets where one of the marks stands."""
    depth = 0
    for k, t in enumerate(tokens):
        depth += (t.text in OPENING) - (t.text in CLOSING)
        if depth == 0 and t.text in marks:
            return k
    return None


def parsed(text, start=0, end=None, variables=()):
    """The signatures, clauses, records and constructors of a file of definitions."""
    found = []
    for a, b in blocks(text, start, len(text) if end is None else end):
        tokens = tokens_of(ANTT, text, a, b)
        while tokens[0].text in ("pub", "abbrev", "unfoldable"):
            tokens = tokens[1:]
        head = tokens[0].text
        if head in ("use", "mod", "unfolding"):
            continue
        if head in ("module", "data", "record") and first_of(tokens, "where") is not None:
            found += nested(text, tokens, b, variables)
            continue
        k = first_of(tokens, ":", "=")
        if k is None:
            continue
        kind = "signature" if tokens[k].text == ":" else "clause"
        body = split(tokens[k + 1 :], "where")[0] if kind == "clause" else []
        found.append(Block(kind, head, tokens, body, dict(variables)))
    return found


def nested(text, tokens, end, variables):
    """What stands under `where` of a module, a record or a data type."""
    k = first_of(tokens, "where")
    inside = dict(variables)
    for group in atoms(tokens[1:k]):
        inside.update({name: bound(group)[1] for name in bound(group)[0]})
    under = parsed(text, tokens[k].start + len("where"), end, inside) if k + 1 < len(tokens) else []
    if tokens[0].text == "module":
        return under
    kind = {"data": "constructor", "record": "field " + tokens[1].text}[tokens[0].text]
    return [Block(kind, b.name, b.tokens, b.tokens[first_of(b.tokens, ":") + 1 :], inside) for b in under if b.kind == "signature"]


@lru_cache(maxsize=None)
def definitions(path):
    """The blocks of a file, and the declared names with their types."""
    found, names = parsed(path.read_text()), {}
    for block in found:
        if block.kind == "clause":
            continue
        k = first_of(block.tokens, ":")
        owner = block.kind[6:] if block.kind.startswith("field") else None
        for t in block.tokens[:k]:
            names.setdefault((owner, t.text), Decl(*arrows(block.tokens[k + 1 :]), t.start, owner))
    return found, names


def scope_of(root, path, text):
    """The names of our crates that a file can use, and the fields of the records that it knows of."""
    names, fields = {}, {}
    modules = [(m.group(1), [n.strip() for n in m.group(2).split(",")]) for m in USE.finditer(text)]
    for module, wanted in modules:
        ours = OURS.match(module)
        file = root / "crates" / ours[1] / "specs" / (ours[2] + ".antt") if ours else None
        if file and file.exists():
            declared = definitions(file)[1]
            names.update({n: declared[None, n]._replace(start=-1) for n in wanted if (None, n) in declared})
            fields.update({(module, *key): d for key, d in declared.items() if key[0]})
    if path.suffix == ".antt":
        declared = definitions(path)[1]
        names.update({n: d for (owner, n), d in declared.items() if not owner})
        fields.update({("", *key): d for key, d in declared.items() if key[0]})
    return names, fields


def imported(name):
    """The name under which a library's operation is imported."""
    return name if re.match(r"\w", name) else f"◌{name}◌"


def offered(text, old):
    """The library's names of the same type, where the file imports the old one."""
    known = any(imported(old) in re.split(r",\s*", m.group(2)) for m in USE.finditer(text))
    return [new for f in FAMILIES if old in f.split() for new in f.split() if new != old] if known else []


def siblings(fields, old):
    """The fields that every known record with the old field has beside it, at the same type."""
    owners = [key[:2] for key in fields if key[2] == old]
    sets = [{k[2] for k in fields if k[:2] == o and fields[k][:2] == fields[(*o, old)][:2]} for o in owners]
    return sorted(set.intersection(*sets) - {old}) if sets else []


# ---- definitions: mutants


def bind(pattern, kind, names, out):
    """The variables of a pattern, with their types."""
    while len(pattern) > 1 and pattern[0].text == "(" and matching(pattern, 0) == len(pattern) - 1:
        pattern = pattern[1:-1]
    pair, parts = split(pattern, "∷"), atoms(pattern)
    if len(pair) == 2 and kind.startswith("List "):
        bind(pair[0], kind[5:].removeprefix("( ").removesuffix(" )"), names, out)
        bind(pair[1], kind, names, out)
    elif len(parts) == 1 and re.match(r"[^\W\d_]", pattern[0].text) and pattern[0].text not in names:
        out[pattern[0].text] = kind
    elif len(parts) > 1 and parts[0][0].text in names:
        for part, arg in zip(parts[1:], names[parts[0][0].text].args):
            bind(part, arg, names, out)


def clause_variables(block, names):
    """The variables that a block's body can use, with the types that its signature gives them."""
    out = dict(block.variables)
    if block.kind == "clause" and block.name in names:
        for part, arg in zip(atoms(block.tokens[1 : first_of(block.tokens, "=")]), names[block.name].args):
            bind(part, arg, names, out)
    return out


def frozen(tokens):
    """The places of binders, field names, patterns, universe levels: never mutated."""
    out, marks = set(), [t.text for t in tokens]
    for k, word in enumerate(marks):
        if word == "λ":
            end = next((j for j in range(k, len(marks)) if marks[j].endswith(".") and marks[j] != "λ"), k)
            out.update(range(k, end + 1))
        elif word in "({" and bound(tokens[k : matching(tokens, k) + 1])[0]:
            out.update(range(k, matching(tokens, k) + 1))
        elif word == "=" and k:
            out.add(k - 1)
        elif word == "↦":
            begin = next(j for j in range(k, -1, -1) if marks[j] in ("[", "|"))
            out.update(range(begin, k))
        elif word.isdigit() and k and marks[k - 1] in ("Type", "{"):
            out.add(k)
    return out


def numbers(word):
    """A constant's neighbours, in its own notation."""
    parts = re.match(r"(0b[01_]+|\d+)([a-z]\w*)?$", word)
    if not parts:
        return []
    n = int(parts[1].replace("_", ""), 0)
    form = bin if parts[1].startswith("0b") else str
    return [form(m) + (parts[2] or "") for m in (n + 1, n - 1) if m >= 0]


def same_type(names, word, at, own):
    """The names of the same type that are declared before this place; types themselves have none."""
    d = names[word]
    if d[:2] == ((), "Type 0"):
        return []
    alike = (n for n, e in names.items() if e[:2] == d[:2] and n not in (word, own) and e.start < at)
    return sorted(alike)


def term_mutants(tokens, text, names, fields, variables, own, mutable=()):
    """The mutants of a term of antt, as (token, new text, kind)."""
    still = frozen(tokens)
    for k, t in enumerate(tokens):
        word, before = t.text, tokens[k - 1].text if k else ""
        if k in still:
            continue
        if word.isdigit():
            yield from ((t, new, "constant") for new in numbers(word))
        elif word in (".old", ".new"):
            if before in mutable:
                yield t, {".old": ".new", ".new": ".old"}[word], "field"
        elif word.startswith(".") and len(word) > 1:
            yield from ((t, "." + new, "field") for new in siblings(fields, word[1:]))
        elif word in variables:
            yield from ((t, new, "variable") for new in sorted(alike(variables, word)))
        elif offered(text, word):
            yield from ((t, new, "operation") for new in offered(text, word))
        elif word in names:
            yield from ((t, new, "name") for new in same_type(names, word, t.start, own))


BUILT_IN = {"suc": Decl(("ℕ",), "ℕ", -1, None), **{n: Decl((), "", -1, None) for n in ("zero", "true", "false")}}


def spec_mutants(root, path):
    """The mutants of a file of definitions, as (token, new text, kind)."""
    text = path.read_text()
    found, _ = definitions(path)
    names, fields = scope_of(root, path, text)
    known = {**names, **BUILT_IN}
    for block in found:
        yield from term_mutants(block.body, text, names, fields, clause_variables(block, known), block.name)


# ---- code


def functions(tokens):
    """The functions of a file of code: parameters, result, the tokens of the body, the contracts."""
    for k, t in enumerate(tokens):
        if t.text != "fn":
            continue
        opened = next(j for j in range(k, len(tokens)) if tokens[j].text == "(")
        closed = matching(tokens, opened)
        params = [split(p, ":") for p in split(tokens[opened + 1 : closed], ",") if p]
        owner = next((tokens[j + 1].text for j in range(k, -1, -1) if tokens[j].text == "impl"), None)
        params = {texts(p[0]).removeprefix("mut "): texts(p[1]) if len(p) > 1 else owner for p in params}
        j, result, contracts = closed + 1, [], []
        while tokens[j].text != "{":
            if tokens[j].text in ("requires", "ensures"):
                # a clause may have a name before its bracket
                begin = next(i for i in range(j, len(tokens)) if tokens[i].text == "{")
                j = matching(tokens, begin)
                contracts.append((tokens[begin].start + 1, tokens[j].start))
            elif not contracts:
                result.append(tokens[j])
            j += 1
        yield Function(tokens[k + 1].text, owner, params, texts(result[1:]), tokens[j : matching(tokens, j) + 1], contracts)


@lru_cache(maxsize=None)
def declared(path):
    """What a file of code declares: functions and constants with their types; of types the variants, fields and methods."""
    values, types, tokens = {}, {}, tokens_of(CODE, path.read_text())
    for f in functions(tokens):
        place = types.setdefault("impl " + f.owner, {}) if f.owner else values
        place[f.name] = (tuple(f.params.values()), f.result)
    for k, t in enumerate(tokens):
        name = tokens[min(k + 1, len(tokens) - 1)].text
        if t.text == "const":
            values[name] = ("const", texts(split(tokens[k + 3 :], "=")[0]))
        elif t.text in ("enum", "struct"):
            opened = next(j for j in range(k, len(tokens)) if tokens[j].text == "{")
            for part in filter(None, split(tokens[opened + 1 : matching(tokens, opened)], ",")):
                part = part[1:] if part[0].text == "pub" else part
                types.setdefault(f"{t.text} {name}", {})[part[0].text] = texts(part[1:]).removeprefix(": ")
    return values, types


def code_scope(root, path, text):
    """The functions and constants that a file of code can name, and the types that it can know of."""
    values, types = map(dict, declared(path))
    for crate, group in re.findall(r"^use (\w+)(?:::\w+)*::(\{[^}]*\}|\w+);", text, re.M):
        source = path.parent if crate == "crate" else root / "crates" / crate / "src"
        for file in sorted(source.glob("*.rt")):
            other = declared(file)
            values.update({name: other[0][name] for name in re.findall(r"\w+", group) if name in other[0]})
            types.update(other[1])
    return values, types


def guessed(expression, variables, values, types):
    """The type of a let's expression, where its text shows it."""
    words = [t.text for t in expression]
    if len(words) > 2 and words[-2] == "as":
        return words[-1]
    if len(words) > 1 and words[1] == "(" and matching(expression, 1) == len(words) - 1 and words[0] in values:
        return values[words[0]][1]
    if len(words) == 3 and words[1] == ".":
        return types.get(f"struct {variables.get(words[0])}", {}).get(words[2])
    if all(w in variables or w in "+-*/%()" or w.isdigit() for w in words):
        return next((variables[w] for w in words if w in variables), "usize")
    return None


def lets(f, values, types):
    """The variables of a function with their types, each with the place from which on it is known."""
    variables, since = dict(f.params), {p: 0 for p in f.params}
    for k, t in enumerate(f.body):
        if t.text == "let":
            j = k + 1 + (f.body[k + 1].text == "mut")
            end = next(i for i in range(j, len(f.body)) if f.body[i].text == ";" and not open_in(f.body[j:i]))
            sides = split(f.body[j + 1 : end], "=")
            kind = texts(sides[0][1:]) if sides[0] else guessed(sides[-1], variables, values, types)
            if kind:
                variables[f.body[j].text], since[f.body[j].text] = kind, f.body[end].start
    return variables, since


def open_in(tokens):
    return sum((t.text in OPENING) - (t.text in CLOSING) for t in tokens)


def patterns(body):
    """The places inside the patterns of a match's arms, and those of field names in short form."""
    out, literal = set(), []
    for k, t in enumerate(body):
        if t.text == "=>":
            depth, j = 0, k - 1
            while depth or body[j].text not in ("{", ",", "}"):
                depth += (body[j].text in CLOSING) - (body[j].text in OPENING)
                out.add(j)
                j -= 1
        if t.text in OPENING:
            literal.append(t.text == "{" and bool(re.match(r"[A-Z]\w*[a-z]", body[k - 1].text)))
        elif t.text in CLOSING and literal:
            literal.pop()
        elif literal and literal[-1] and body[k - 1].text in "{," and body[k + 1].text in ",}":
            out.add(k)
    return out


def body_mutants(f, values, types):
    """The mutants of a function's body, as (token, new text, kind)."""
    variables, since = lets(f, values, types)
    still = patterns(f.body)
    for k, t in enumerate(f.body[1:-1], 1):
        before, after, found = f.body[k - 1].text, f.body[k + 1].text, []
        if t.text[0].isdigit():
            found, kind = [] if before == "." or (before, after) == (";", "]") else numbers(t.text), "constant"
        elif k in still or before in ("let", "mut", "as") or after == ":":
            continue
        elif before == ".":
            found, kind = members(t.text, "impl" if after == "(" else "struct", types), "field"
        elif before == "::":
            found, kind = alike(types.get("enum " + f.body[k - 2].text, {}), t.text), "variant"
        elif t.text in variables:
            found, kind = [v for v in alike(variables, t.text) if since[v] < t.start], "variable"
        elif t.text in values:
            found, kind = [v for v in alike(values, t.text) if v != f.name], "name"
        elif t.start - f.body[k - 1].start > len(before) or t.text in ("true", "false"):
            found, kind = [new for o in OPERATORS if t.text in o.split() for new in o.split() if new != t.text], "operator"
        yield from ((t, new, kind) for new in found)


def alike(kinds, word):
    """The other names of the same type."""
    return [n for n in kinds if n != word and kinds[n] == kinds.get(word)]


def members(word, sort, types):
    """The methods (sort "impl") or fields (sort "struct") of the same type beside this one, where only one type has it."""
    owners = [found for name, found in types.items() if name.startswith(sort) and word in found]
    return alike(owners[0], word) if len(owners) == 1 else []


def constants(tokens):
    """The values of the constants."""
    for k, t in enumerate(tokens):
        if t.text == "const" and tokens[k + 2].text == ":":
            begin = next(j for j in range(k, len(tokens)) if tokens[j].text == "=")
            end = next(j for j in range(begin, len(tokens)) if tokens[j].text == ";" and not open_in(tokens[begin:j]))
            yield from ((v, new, "constant") for v in tokens[begin:end] for new in numbers(v.text))


LOGICAL = {**dict.fromkeys(["u8", "u16", "u32", "u64", "usize"], "ℕ"), "bool": "Bool"}


def code_mutants(root, path):
    """The mutants of a file of code, those of its contracts among them."""
    text = path.read_text()
    tokens = tokens_of(CODE, text)
    values, types = code_scope(root, path, text)
    names, known = scope_of(root, path, text)
    yield from constants(tokens)
    for f in functions(tokens):
        yield from body_mutants(f, values, types)
        variables = {p: LOGICAL.get(kind, kind) for p, kind in f.params.items()}
        mutable = [p for p, kind in f.params.items() if kind.startswith("& mut")]
        for begin, end in f.contracts:
            terms = tokens_of(ANTT, text, begin, end)
            found = term_mutants(terms, text, names, known, variables, None, mutable)
            yield from ((t, new, "promised " + kind) for t, new, kind in found)


# ---- all of them


def mutants_of(root, crate):
    """All mutants of a crate, in the order of its files."""
    folder = root / "crates" / crate
    files = sorted(folder.glob("src/*.rt")) + [p for p in sorted(folder.glob("specs/*.antt")) if p.name not in ("Opened.antt", "Lib.antt")]
    for path in files:
        text = path.read_text()
        make = code_mutants if path.suffix == ".rt" else spec_mutants
        for t, new, kind in make(root, path):
            line = text.count("\n", 0, t.start) + 1
            column = t.start - text.rfind("\n", 0, t.start)
            yield Mutant(crate, str(path.relative_to(folder)), line, column, t.start, t.text, new, kind)


def mutated(text, m):
    """The file's text with the mutant in it, and with the import that a library's name needs."""
    out = text[: m.start] + m.new + text[m.start + len(m.old) :]
    if m.kind.endswith("operation"):
        lists = [match.group(2) for match in USE.finditer(out)]
        if not any(imported(m.new) in re.split(r",\s*", names) for names in lists):
            old = next(names for names in lists if imported(m.old) in re.split(r",\s*", names))
            out = out.replace("{" + old + "}", "{" + old + ", " + imported(m.new) + "}", 1)
    return out
