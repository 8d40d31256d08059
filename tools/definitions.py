"""The definitions of crates/*/specs and proofs and the types of crates/*/src, and which of them a text reaches.

A name is looked up as the prover does it: bound in the text (an argument, λ, let, a premise), defined in the file, or brought in by a `use`. A name
that comes from no crate of this repository is the kit's. `unfolding` lines and the steps of a proof are not read: they say nothing about what a
definition or a statement means.
"""
import re
from dataclasses import dataclass, field
from pathlib import Path

PART = r"[^\s(){}\[\],;.«»⌜⌝]+"
TOKEN = re.compile(rf"«[^»]+»|\[\]|(?<![^\s()»}}])\.(?:«[^»]+»|[\w'·-]+)|[(){{}}\[\],;⌜⌝]|{PART}(?:\.{PART})*|\.")
WORDS = {"→", "=", ":", "λ", "let", "in", "record", "data", "where", "pub", "abbrev", "unfoldable", "Type", "Unit", "⊥", "×", "_"}
USE = re.compile(r"^(?:ghost |unfoldable |abbrev )*(?:pub )?use ([^\s;{]+?)(?:(\.|::)\{([^}]*)\}| as (\S+?))?;?$", re.M)
SIGNATURE = re.compile(rf"^( *)((?:(?:unfoldable|abbrev|pub) )*)(?!module |mod |use |infix)({PART}) :(?= |$)")
TYPE = re.compile(r"^( *)(?:pub )?(record|data) (\S+)")
MODULE = re.compile(r"^( *)module _ ")
RUST_TYPE = re.compile(r"^(?:pub(?:\([a-z]+\))? )?(?:struct|enum) (\w+)[^{]*\{.*?^\}", re.M | re.S)
HEAD = re.compile(r'\bpub (?:(?:const|unsafe|extern "C") )*fn (\w+)(?:<[^>]*>)?\s*(?=\()')


class Unknown(Exception):
    """A name that is brought in from a crate and is not there."""


@dataclass(eq=False)
class Definition:
    file: "File"
    name: str
    line: int
    comment: str
    text: str
    # the parts that are read one by one, each with the names that are bound in it
    parts: list = field(default_factory=list)
    # a statement that is proved has no meaning beside its type
    theorem: bool = False

    def __str__(self):
        return f"{self.file.crate}: {self.file.place}, {self.name}"


class File:
    """A file's definitions, and the names that it brings in."""

    def __init__(self, path, text):
        self.path, self.text = path, text
        at = path.parts.index("crates")
        self.crate, folder = path.parts[at + 1], path.parts[at + 2]
        self.place = f"{folder}/" + "/".join(path.with_suffix("").parts[at + 3:])
        self.imports, self.aliases, self.definitions, self.constructors = {}, {}, {}, {}
        for m in USE.finditer(text):
            module, sign, names, alias = m.groups()
            if alias:
                self.aliases[alias] = module
            elif names is None:  # a `use` of the code: of types, and functions, which no contract names
                self.imports.setdefault(module.split("::")[-1], (module, module.split("::")[-1]))
            for name in (names or "").split(","):
                old, _, new = name.strip().partition(" as ")
                if old and sign == "::":
                    self.imports.setdefault(new or old, (f"{module}::{old}", old))
                elif old:  # in a contract a definition goes before a function of the code with its name
                    self.imports[new or old] = (module, old)
        if path.suffix == ".rt":
            self.read_types()
        else:
            self.read()

    def add(self, name, at, lines, **more):
        comment = []
        for line in reversed(self.text.splitlines()[:at]):
            if not line.lstrip().startswith(("--", "//", "infix", "#[")) or line.startswith("-- ----"):
                break
            comment.insert(0, line.strip())
        self.definitions.setdefault(name, Definition(self, name, at + 1, "\n".join(comment), "\n".join(lines), **more))

    def read_types(self):
        for m in RUST_TYPE.finditer(self.text):
            body = without_comments(m.group(0))
            self.add(m.group(1), self.text.count("\n", 0, m.start()), m.group(0).splitlines(), parts=[(re.sub(r"\b\w+:|::|[&;']", " ", body), set())])

    def read(self):
        lines = self.text.splitlines()
        modules, past = [], 0
        for at, line in enumerate(lines):
            if at < past or not line.strip() or line.lstrip().startswith("--"):
                continue
            modules = [(d, telescope) for d, telescope in modules if d < len(line) - len(line.lstrip())]
            telescopes = [telescope for _, telescope in modules]
            if m := MODULE.match(line):
                past = next(end for end in range(at, len(lines)) if lines[end].endswith(" where")) + 1
                modules.append((len(m[1]), " ".join(lines[at:past])[m.end():-len(" where")]))
            elif m := TYPE.match(line):
                past = self.read_type(at, lines, m[2], m[3], telescopes)
            elif (m := SIGNATURE.match(line)) and len(m[1]) == 2 * len(modules):
                past = self.read_clauses(at, lines, m, telescopes)

    def read_type(self, at, lines, kind, name, telescopes):
        indent = len(lines[at]) - len(lines[at].lstrip())
        end = at + 1
        while end < len(lines) and (lines[end].startswith(" " * (indent + 1))):
            end += 1
        head = " ".join(telescopes + [re.sub(r"^ *(pub )?(record|data) \S+|\bwhere$", "", lines[at])])
        members, bound = [], binders(head)
        for line in without_comments("\n".join(lines[at + 1:end])).splitlines():
            if m := re.match(rf"^ {{{indent + 2}}}(?:pub )?({PART}) : (.*)", line):
                members.append([m[1], m[2]])
            elif members:
                members[-1][1] += " " + line
        parts = [(head, set())]
        for member, type_ in members:
            parts.append((type_, set(bound)))
            bound.add(member) if kind == "record" else self.constructors.__setitem__(member, name)
        self.add(name, at, lines[at:end], parts=parts)
        return end

    def read_clauses(self, at, lines, m, telescopes):
        indent, marks, name = len(m[1]), m[2], m[3]
        end = at + 1
        while end < len(lines) and lines[end].startswith(" " * (indent + 1)):
            end += 1
        type_ = " ".join(telescopes + [without_comments("\n".join(lines[at:end]))[m.end():]])
        parts, theorem = [(type_, binders(" ".join(telescopes)))], not re.search("abbrev|unfoldable", marks)
        while not theorem and end < len(lines) and re.match(rf" {{{indent}}}(unfolding |{re.escape(name)} |  )", lines[end]):
            start, end = end, end + 1
            while end < len(lines) and (lines[end].startswith(" " * (indent + 1)) or re.match(rf" {{{indent}}}[)\]}}]", lines[end])):
                end += 1
            clause = without_comments("\n".join(lines[start:end])).strip()
            if not clause.startswith("unfolding "):
                left, right = clause.split("=", 1) if clause.split("=", 1)[0].endswith((" ", "\n")) else (clause, "")
                parts.append((right, left[len(name):]))
        self.add(name, at, lines[at:end], parts=parts, theorem=theorem)
        return end


def without_comments(text):
    return re.sub(r"(--|//)[^\n]*", "", text)


def binders(text):
    """The names that the groups `(a b : T)` of a telescope bind."""
    return {name for group in re.findall(r"[({]([^(){}:]+) : ", text) for name in group.split()}


def free_names(text, bound):
    """The names of a text that it does not bind itself, in order. `.field`, `field =` in a record and «names of the code» are none."""
    tokens = TOKEN.findall(text)
    scopes, pending, lets, found = [set(bound)], [], [], []
    i = 0
    while i < len(tokens):
        t = tokens[i]
        if t in "({":
            j = i + 1
            while j < len(tokens) and re.fullmatch(PART, tokens[j]) and tokens[j] not in WORDS - {"_"}:
                j += 1
            group = set(tokens[i + 1:j]) if j < len(tokens) and tokens[j] == ":" else set()
            pending.append((group, i > 0 and tokens[i - 1] == "record"))
            scopes.append(set(scopes[-1]))
            i = j if group else i
        elif t in ")}":
            scopes.pop()
            scopes[-1] |= pending.pop()[0]
        elif t == "λ":
            i += 1
            while tokens[i] != ".":
                if tokens[i] == "(":
                    end = tokens.index(")", i)
                    colon = tokens.index(":", i)
                    found += [name for name in free_names(" ".join(tokens[colon + 1:end]), scopes[-1])]
                    scopes[-1] |= set(tokens[i + 1:colon])
                    i = end
                else:
                    scopes[-1].add(tokens[i])
                i += 1
        elif t == "let":
            lets.append(tokens[i + 1])
            i += 1
        elif t == "in":
            scopes[-1].add(lets.pop())
        elif t in WORDS or t[0] in ".«[],;" and t != "[]" or t[0].isdigit():
            pass
        elif pending and pending[-1][1] and i + 1 < len(tokens) and tokens[i + 1] == "=":
            pass
        elif t.split(".")[0] not in scopes[-1]:
            found.append(t)
        i += 1
    return found


class Library:
    """All files, and the names in them."""

    def __init__(self, files):
        self.files = {}
        for path, text in files:
            file = File(path, text)
            self.files[(file.crate, file.place)] = file
        self.crates = {crate for crate, _ in self.files}
        self.types = {(file.crate, name): d for file in self.files.values() if file.path.suffix == ".rt" for name, d in file.definitions.items()}
        self.found = {}

    def find(self, crate, place, name):
        """The definition of this name in a crate's file, as `specs/Refusal`; none where it is not there."""
        file = self.files.get((crate, place))
        return file and file.definitions.get(name)

    def lookup(self, module, name):
        """The definition of a name in a module: none where the module is the kit's, or made by the prover from the code."""
        if "::" in module:  # a type of the code
            return self.types.get((module.split("::")[0], name))
        first, crate, *rest = module.split(".") + [""]
        if first != "Rattle" or crate not in self.crates:
            return None
        rest = rest[:-1]
        if rest[:2] == ["specs", "declared"]:
            found = self.types.get((crate, [part for part in rest if part != "TheVariants"][-1]))
        else:
            file = self.files.get((crate, "/".join(rest)))
            if file is None and rest[:1] != ["specs"]:
                return None
            found = file and self.within(file, name)
        if found is None:
            raise Unknown(f"{name} is not in {module}")
        return found

    def within(self, file, name):
        """What a name stands for in a file: a definition, or none where it is the kit's."""
        alias, _, last = name.partition(".")
        if last and alias in file.aliases:
            return self.lookup(file.aliases[alias], last)
        # what stands behind the dot is a field
        name = alias
        for n in (name, f"◌{name}◌"):
            if n in file.definitions:
                return file.definitions[n]
            if n in file.constructors:
                return file.definitions[file.constructors[n]]
            if n in file.imports:
                module, old = file.imports[n]
                return self.lookup(module.replace("crate::", f"{file.crate}::"), old)
        if file.path.suffix == ".rt":
            return self.types.get((file.crate, name))
        return None

    def named(self, file, text, bound):
        """The definitions that a text names, each once, in order; and the names that are the kit's."""
        if isinstance(bound, str):  # the left side of a clause: what is no constructor is an argument
            left = [t for t in TOKEN.findall(bound) if t not in "(){}"]
            built = [t for t in left if (d := self.within(file, t)) and (t in d.file.constructors or d.file.path.suffix == ".rt")]
            kit = [t for t in left if t in file.imports and self.within(file, t) is None]
            text, bound = " ".join(built) + " " + text, set(left) - set(built) - set(kit)
        own, kit = {}, {}
        for name in free_names(text, bound):
            head = name.partition(".")[0]
            module = file.imports.get(head, file.imports.get(f"◌{head}◌", ("", "")))[0]
            if d := self.within(file, name):
                own[d] = None
            elif module:
                kit[f"{module}.{head}"] = None
            elif file.place.startswith("specs/") and head not in file.aliases:
                raise Unknown(f"{file.path}: {name} is neither bound nor defined nor brought in")
        return list(own), list(kit)

    def together(self, file, parts):
        """The same of several texts."""
        named = [self.named(file, text, bound) for text, bound in parts]
        return [list(dict.fromkeys(name for found in named for name in found[side])) for side in (0, 1)]

    def uses(self, d):
        """The definitions that a definition names, and the names in it that are the kit's."""
        if d not in self.found:
            own, kit = self.together(d.file, d.parts)
            self.found[d] = ([other for other in own if other is not d], kit)
        return self.found[d]

    def reached(self, roots):
        """The definitions that these reach, themselves among them, each after all those that use it."""
        order, seen = [], set()

        def visit(d):
            if d not in seen:
                seen.add(d)
                for used in reversed(self.uses(d)[0]):
                    visit(used)
                order.insert(0, d)

        for d in reversed(list(roots)):
            visit(d)
        return order

    def contract(self, file, function):
        """The definitions that the `ensures` of a public function name, and the names there that are the kit's."""
        parameters = {"result", *re.findall(r"(\w+)\s*:", function.parameters)}
        return self.together(file, [(body, parameters) for kind, body in function.clauses if kind == "ensures"])

    def functions(self):
        """The public functions of the code, with their files."""
        return [(file, f) for file in self.files.values() if file.path.suffix == ".rt" for f in functions(file.text)]


@dataclass
class Function:
    name: str
    # the type whose method it is, or ""
    type: str
    line: int
    # the comment lines above it
    comment: str
    # from `pub` to the last clause
    head: str
    parameters: str
    # what stands after `->`, or ""
    returns: str
    # the clauses between the head and the body: `requires` or `ensures`, and what stands between its braces
    clauses: list


def functions(text):
    """The public functions of a file of the code."""
    plain = re.sub(r"//[^\n]*", lambda m: " " * len(m[0]), text)
    for m in HEAD.finditer(plain):
        end = matching(plain, m.end(), "(", ")")
        parameters = plain[m.end():end]
        if returns := re.compile(r"\s*->\s*([^\n{]+)").match(plain, end):
            end = returns.end()
        clauses = []
        while c := re.compile(r"\s*(requires|ensures)\b[^{]*").match(plain, end):
            end = matching(plain, c.end(), "{", "}")
            clauses.append((c[1], " ".join(plain[c.end() + 1:end - 1].split())))
        # of a method, the lines above it begin further right
        comment = "\n".join(above(re.sub(r"^ +", "", text[:m.start()], flags=re.M)))
        block = re.findall(r"^impl(?:<[^>]*>)? (\w+)|^}$", plain[:m.start()], re.M)
        yield Function(m[1], block[-1] if block else "", text.count("\n", 0, m.start()) + 1, comment, text[m.start():end].rstrip(), parameters, returns[1].strip() if returns else "", clauses)


def above(text):
    """The comment lines at the end of a text, beside attributes, of which each may take several lines."""
    found = []
    while True:
        text = text.rstrip("\n") if text.endswith("\n") and not text.endswith("\n\n") else text
        start = text.rfind("\n") + 1
        if text.startswith("//", start):
            found.insert(0, text[start:])
        elif text.endswith("]") and (start := re.search(r"(?:\n|^)#\[(?:(?!\n#\[|\n\n).)*$", text, re.S)) is not None:
            start = start.start() + text.startswith("\n", start.start())
        else:
            return found
        text = text[:start]


def matching(text, at, opening, closing):
    depth = 0
    for i in range(at, len(text)):
        if text[i] == opening:
            depth += 1
        elif text[i] == closing:
            depth -= 1
            if depth == 0:
                return i + 1
    raise SystemExit(f"contracts: unbalanced {opening}")


def library():
    """That of crates/: definitions, laws and theorems, and the code."""
    paths = [path for pattern in ("*/specs/*.antt", "*/proofs/*.antt", "*/src/**/*.rt") for path in sorted(Path("crates").glob(pattern))]
    return Library([(path, path.read_text(encoding="utf-8")) for path in paths])
