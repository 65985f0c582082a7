"""Reads Rattle and antt as their own readers do, for the tests that look at the text of the tree.

A comment is `//` or a nested `/* */` in Rattle, `--` or a nested `{- -}` in antt. The braces of a clause hold antt.
"""
import re

NAME = r'[^\s(){}.;,@"«»]+'
RELATIONS = ["≡", "≢", "≤", "<", "∣"]


def blank(text):
    """Spaces in place of a text, so that lines and columns stay."""
    return re.sub(r"[^\n]", " ", text)


def nested(text, at, begin, end):
    """The place after the comment that begins at `at`."""
    depth = 0
    for m in re.compile(f"{re.escape(begin)}|{re.escape(end)}").finditer(text, at):
        depth += 1 if m.group() == begin else -1
        if depth == 0:
            return m.end()
    return len(text)


def plain_antt(text, quoted=False):
    """antt with its comments blanked, and its quoted texts too unless they are asked for."""
    out, at = [], 0
    for m in iter(lambda: re.compile(r'\{-|(?<![^\s(){}.;,@"«»])--[^\n]*|"(?:\\.|[^"\\])*"').search(text, at), None):
        stop = nested(text, m.start(), "{-", "-}") if m.group() == "{-" else m.end()
        kept = quoted and m.group()[0] == '"'
        out += [text[at : m.start()], m.group() if kept else blank(text[m.start() : stop])]
        at = stop
    return "".join(out) + text[at:]


def closing(text, at):
    """The place after the brace that closes the one at `at`, in plain antt."""
    return nested(text, at, "{", "}")


class Function:
    """A function: its path (crate, modules, type if it is a method, name), its parameters, the type that it gives, its clauses
    (kind, antt), and where it begins and ends."""

    # Whether its clause is the law of a conversion.
    is_law = False

    def __init__(self, path, public, parameters, gives, clauses, at, end):
        self.path, self.public, self.parameters, self.gives, self.clauses, self.at, self.end = path, public, parameters, gives, clauses, at, end

    def of(self, kind):
        return [text for k, text in self.clauses if k == kind]


LITERAL = re.compile(r"""//[^\n]*|/\*|b?"(?:\\.|[^"\\])*"|b?'(?:\\[^']*|[^'\\])'""")
CLAUSE = re.compile(r"(requires\*?|ensures\*?|ghost)(?!\w)\s*(?:\w+\s*[:=]?\s*)?(?=\{)")


def plain_rattle(text):
    """Rattle with comments and literals blanked, its clauses (place, kind, antt), and its `ghost use` items as antt; both blanked too."""
    out, clauses, imports, at = [], [], [], 0
    step = re.compile(rf"{LITERAL.pattern}|\b{CLAUSE.pattern}|\bghost\s+(use\b[^;]*);")
    for m in iter(lambda: step.search(text, at), None):
        stop = m.end()
        if m.group() == "/*":
            stop = nested(text, m.start(), "/*", "*/")
        elif m.group(1):
            rest = plain_antt(text[m.end() :])
            length = closing(rest, 0)
            stop = m.end() + length
            clauses.append((m.start(), m.group(1), rest[1 : length - 1]))
        elif m.group(2):
            imports.append(" ".join(plain_antt(m.group(2)).split()))
        out += [text[at : m.start()], blank(text[m.start() : stop])]
        at = stop
    return "".join(out) + text[at:], clauses, "\n".join(imports)


def brackets(text, at):
    """The place after the bracket that closes the one at `at`, in plain Rattle."""
    depth = 0
    for m in re.compile(r"[(\[{]|[)\]}]").finditer(text, at):
        depth += 1 if m.group() in "([{" else -1
        if depth == 0:
            return m.end()
    return len(text)


def functions(source, crate, modules):
    """Every function of a file, those in `impl` and `mod` blocks too."""
    text, clauses, _ = plain_rattle(source)
    item = re.compile(r"\b(impl|mod)\b(?:\s*<[^>]*>)?\s+(?:(?P<trait>[\w:]+)(?:<(?P<of>[^>]*)>)?\s+for\s+)?(?P<type>[\w:]+)(?:<[^>]*>)?\s*\{|(?P<pub>(?:\bpub\b\s*(?:\([^)]*\)\s*)?)?)(?:\b(?:const|unsafe|extern)\s+)*\bfn\s+(?P<fn>\w+)|\}")
    around, at, found = [], 0, []
    for m in iter(lambda: item.search(text, at), None):
        at = m.end()
        if m.group(1):
            kind, trait = m["type"].split("::")[-1], (m["trait"] or "").split("::")[-1]
            # The prover calls an impl of a trait by the type, the trait and what that is of.
            impl = kind + trait + (m["of"] or "").strip()[:1].upper() + (m["of"] or "").strip()[1:]
            around.append((brackets(text, m.end() - 1), kind, impl))
        if not m["fn"]:
            continue
        around = [block for block in around if block[0] > m.start()]
        opening = text.index("(", m.end())
        after = brackets(text, opening)
        stop = after
        while stop < len(text) and text[stop] not in "{;":
            stop = brackets(text, stop) if text[stop] in "([" else stop + 1
        listed = re.sub(r"(&\s*(?:'\w+\s+)?(?:mut\s+)?)?\bself\b", r"self: \1Self", text[opening + 1 : after - 1])
        parameters = re.findall(r"(?:^|,)\s*(?:mut\s+)?(\w+)\s*:\s*([^,]*)", listed)
        parameters += re.findall(r"\bconst\s+(\w+)\s*:\s*(\w+)", text[m.end() : opening])
        own = [(kind, clause) for place, kind, clause in clauses if after <= place < stop]
        path = "::".join([crate, *modules, *(name for _, name, _ in around), m["fn"]])
        proved = "::".join([crate, *modules, *(name for _, _, name in around), m["fn"]])
        gives = text[after:stop].partition("->")[2].strip()
        at = brackets(text, stop) if text[stop : stop + 1] == "{" else stop
        found.append(Function(path, bool(m["pub"].strip()), parameters, gives, own, m.start(), at))
        found[-1].proved = proved
    return found


def structs(source):
    """The structs of a file, each with its fields."""
    text, found = plain_rattle(source)[0], {}
    for m in re.finditer(r"\bstruct\s+(\w+)(?:<[^>]*>)?\s*(?=[({])", text):
        inside = text[m.end() + 1 : brackets(text, m.end()) - 1]
        named = re.findall(r"(?:^|,)\s*(?:pub(?:\([^)]*\))?\s+)?(\w+)\s*:", inside)
        found[m.group(1)] = named or [str(i) for i in range(len([part for part in inside.split(",") if part.strip()]))]
    return found


def bodies(source):
    """The structs and enums of a file, each with what stands in it."""
    text = plain_rattle(source)[0]
    for m in re.finditer(r"\b(?:struct|enum)\s+(\w+)(?:<[^>]*>)?\s*(?=[({])", text):
        yield m.group(1), text[m.end() : brackets(text, m.end())]


# What an `impl` of a conversion says of itself: what it gives.
GIVES = re.compile(r"ghost\s+(?:try_)?from_gives\s*=")


def ghosts(source):
    """The ghost fields of a file, by struct, and the places of what else is ghost there and says more than what a conversion gives."""
    text, clauses, _ = plain_rattle(source)
    bodies = [(m.group(1), m.end(), brackets(text, m.end())) for m in re.finditer(r"\bstruct\s+(\w+)(?:<[^>]*>)?\s*(?=\{)", text)]
    bodies += [(None, m.end() - 1, brackets(text, m.end() - 1)) for m in re.finditer(r"\bimpl(?:\s*<[^>]*>)?\s+(?:Try)?From<[^>]*>\s+for\s+\w+(?:<[^>]*>)?\s*\{", text)]
    fields, others = {}, [m.start() for m in re.finditer(r"\bghost\b", text)]
    for place, kind, clause in clauses:
        if kind == "ghost":
            around = next((name for name, start, end in bodies if start < place < end), "")
            if around:
                fields.setdefault(around, []).append(clause)
            elif around == "" or not GIVES.match(source, place):
                others.append(place)
    return fields, others


def binders(tokens):
    """The names that a λ binds, some of them in brackets with their type."""
    found, depth, typed = [], 0, False
    for token in tokens:
        depth += (token in "({") - (token in ")}")
        typed = depth > 0 and (typed or token == ":")
        found += [token] if not typed and token not in "(){}" else []
    return found


def applied(law):
    """A law, which is of a value and of what that becomes: the name that it has for the value, and the fact that it states of it and of `result`."""
    told, bound = bare(words(law)), []
    while len(bound) < 2 and told[:1] == ["λ"] and "." in told:
        end = told.index(".")
        bound, told = bound + binders(told[1:end]), bare(told[end + 1 :])
    told, bound = told + ["value", "result"][len(bound) :], bound + ["value", "result"][len(bound) :]
    renamed = {"result": "result'"} | ({bound[1]: "result"} if bound[1] != "_" else {})
    return renamed.get(bound[0], bound[0]), " ".join(renamed.get(token, token) for token in told)


def conversions(source, crate, modules):
    """The conversions of a file, each `impl` of From or TryFrom read as a function that the prover calls so: its law, if it has one, is an `ensures`.
    It is public unless its type stands in the same file and is private."""
    text, clauses, _ = plain_rattle(source)
    for m in re.finditer(r"\bimpl\b\s*(?=[<\w:])", text):
        opening = text.find("{", m.end())
        head = text[m.end() : opening].replace("->", "  ")
        head = head[nested(head, 0, "<", ">") if head[0] == "<" else 0 :]
        told = re.fullmatch(r"\s*(?:::|\w+::)*(?P<trait>(?:Try)?From)\s*<(?P<of>.*)>\s*for\b\s*(?P<type>.*?)\s*(?:\bwhere\b.*)?", head, re.DOTALL)
        if not told:
            continue
        end, name = brackets(text, opening), "from" if told["trait"] == "From" else "try_from"
        kind, of = told["type"].partition("<")[0].split("::")[-1].strip(), told["of"].strip()
        laws = [law for place, what, law in clauses if opening < place < end and what == "ghost" and re.match(rf"ghost\s+{name}_gives\s*=", source[place:])]
        stated = [applied(law) for law in laws]
        error = re.search(r"\btype\s+Error\s*=\s*([^;]*);", text[opening:end])
        declared = re.search(rf"(\bpub\b\s*(?:\([^)]*\)\s*)?)?\b(?:struct|enum)\s+{re.escape(kind)}\b", text)
        path = "::".join([crate, *modules, kind + told["trait"] + of[:1].upper() + of[1:], name])
        gives = told["type"] if name == "from" else f"Result<{told['type']}, {error[1] if error else ''}>"
        parameters, ensures = [(value, of) for value, _ in stated], [("ensures", law) for _, law in stated]
        found = Function(path, not declared or bool(declared[1]), parameters, gives, ensures, m.start(), end)
        found.is_law = True
        yield found


class Use:
    """An import: the module, the name there (none if the module itself is imported), the name here, and whether it is passed on."""

    def __init__(self, module, name, here, public):
        self.module, self.name, self.here, self.public = module, name, here, public


def uses(text):
    """The imports of plain antt, or of Rattle's `ghost use` items."""
    found = []
    for m in re.finditer(r"(?m)^[ \t]*((?:pub\s+|unfoldable\s+)*)use\s+([^\s{;]+?)\.?(\{[^}]*\})?(?:\s+as\s+(\S+?))?\s*$", text):
        public, module = "pub" in m.group(1), m.group(2).removeprefix("package.")
        if not m.group(3):
            found.append(Use(module, None, m.group(4) or module.split(".")[-1], public))
        for part in (m.group(3) or "{}")[1:-1].split(","):
            item = part.split()
            if item:
                inner, _, name = item[0].rpartition(".")
                found.append(Use(".".join(filter(None, [module, inner])), name, item[-1] if len(item) == 3 else name, public))
    return found


HEADER = re.compile(rf"[ \t]*(?:pub\s+)?(data|record|module|mutual)(?:[ \t]+({NAME})|$)")
SIGNATURE = re.compile(rf"[ \t]*(?:(?:unfoldable|abbrev|axiom|pub)\s+)*({NAME})(?:[ \t]+\{{[^}}]*\}})?[ \t]+:(?=\s|$)")


def definitions(text):
    """What plain antt declares, each with its kind: a type, a name (a definition or a theorem), a constructor, a field of a
    record, or a local of a `where` block."""
    found, blocks, header = [], [], None
    for line in filter(str.strip, text.splitlines()):
        indent = len(line) - len(line.lstrip())
        blocks = [(at, kind) for at, kind in blocks if at < indent]
        if header and indent <= header[0]:
            header = None
        m = HEADER.match(line)
        if m:
            header = indent, m.group(1)
            if m.group(1) in ("data", "record"):
                found.append(("type", m.group(2)))
        elif not header and (m := SIGNATURE.match(line)):
            kind = blocks[-1][1] if blocks else None
            found.append(({"data": "constructor", "record": "field", "where": "local"}.get(kind, "name"), m.group(1)))
        if re.search(r"(?:^|\s)where$", line.rstrip()):
            blocks.append(header or (indent, "where"))
            header = None
    return found


class Declared:
    """A declaration of antt: its kind (`type` or `name`), its name, whether it is public and whether others may unfold it, and its words."""

    def __init__(self, kind, name, first):
        begins = first.split()[:3]
        self.kind, self.name, self.public, self.opens = kind, name, "pub" in begins, bool({"abbrev", "unfoldable"} & set(begins))
        self.lines = [first]

    def words(self):
        """Its words, however it is laid out: a mark that ends the last part of a bracket is left out."""
        told = words("\n".join(self.lines))
        return [word for word, after in zip(told, [*told[1:], ""]) if not (word in ";," and after in list("})"))]


def declarations(text):
    """What antt without comments declares, each with all that it is said by: the modules around it, its signature and its clauses."""
    found, around, last = [], [], None
    for line in filter(str.strip, text.splitlines()):
        indent = len(line) - len(line.lstrip())
        if around and around[-1][2] and not (last and indent <= around[-1][0]):
            around[-1][1] += line
            around[-1][2] = not re.search(r"\bwhere\s*$", line)
            continue
        if last and indent > last[0]:
            last[1].lines.append(line)
            continue
        around = [module for module in around if module[0] < indent]
        header, signature = HEADER.match(line), SIGNATURE.match(line)
        if header and header.group(1) in ("module", "mutual"):
            around.append([indent, line, header.group(1) == "module" and not re.search(r"\bwhere\s*$", line)])
            last = None
        elif header or signature:
            declared = Declared("type", header.group(2), line) if header else Declared("name", signature.group(1), line)
            declared.lines[:0] = [module[1] for module in around]
            found.append(declared)
            last = indent, declared
        elif re.match(r"\s*(?:(?:pub|unfoldable)\s+)*(?:use|mod)\s", line):
            last = None
        elif last:
            named = next((one for one in reversed(found) if one.name == line.split()[0]), last[1])
            named.lines.append(line)
            last = indent, named
    return found


def going_on(text, m):
    """What follows a match that begins with its line's indent, up to the next line that is not indented further."""
    end = re.compile(rf"\n(?![ \t]*(?:\n|$))(?!{m.group(1)}[ \t])").search(text, m.end())
    return text[m.end() : end.start() if end else len(text)]


def statement(text, name):
    """The type that plain antt gives a name, in one line."""
    m = re.search(rf"(?m)^([ \t]*)(?:(?:unfoldable|abbrev|pub)\s+)*{re.escape(name)}[ \t]+:(?=\s)", text)
    return " ".join(going_on(text, m).split()) if m else None


def body(text, name):
    """What stands after `name =` in plain antt."""
    m = re.search(rf"(?m)^([ \t]*){re.escape(name)}[ \t]*=(?=\s)", text)
    return going_on(text, m) if m else None


def words(text):
    """The words of plain antt: names, brackets, and dots. `.f` is a projection, `.` alone ends a λ's binders."""
    return re.findall(rf'"(?:\\.|[^"\\])*"|«[^»]*»|\.{NAME}|{NAME}|[(){{}}.;,@]', text)


def split(tokens, at):
    """The parts between the words of `at` that stand in no bracket."""
    parts, depth = [[]], 0
    for token in tokens:
        depth += (token in "({") - (token in ")}") if len(token) == 1 else 0
        if depth == 0 and token in at:
            parts.append([])
        else:
            parts[-1].append(token)
    return parts


def bare(tokens):
    """The words without brackets around the whole."""
    while len(tokens) > 1 and tokens[0] == "(" and tokens[-1] == ")":
        depth = 0
        for i, token in enumerate(tokens):
            depth += (token == "(") - (token == ")")
            if depth == 0 and i < len(tokens) - 1:
                return tokens
        tokens = tokens[1:-1]
    return tokens
