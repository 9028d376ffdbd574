"""Reads the crates' specs and sources as far as `closure.py` needs: what each file declares, and what a name in it stands for."""
import re

# The library's modules, beside `Rattle.NAME` of a NAME that is no crate here.
LIBRARY = ("mathlib.", "lib.", "Prim.", "native.", "borrow.", "tt.", "denote.", "base.", "types.")
MARKS = {"unfoldable", "abbrev", "pub", "axiom"}
TOKEN = re.compile(r'[^\s(){}.;,@"«»]+|[(){};,.@"«»]')
USE = re.compile(r"(?:pub )?use (\S+?)(?:\.\{(.*)\}| as (\S+))?$")


class Unread(Exception):
    """A form that is not known here: better to stop than to pass over it."""


def names(text):
    """The names of a text, as (name, qualifier or None). Projections (`f.in0`), fields of a `record` and named arguments are none."""
    found = [(m.group(), m.start()) for m in TOKEN.finditer(text)]
    i = 0
    while i < len(found):
        word, at = found[i]
        end = at + len(word)
        if word == ".":
            # with a word right behind it a projection, else the end of a λ's binders
            i += 2 if text[end: end + 1].strip() else 1
        elif word in '(){};,@"«»' or i and found[i - 1][0] in "{;" and i + 1 < len(found) and found[i + 1][0] == "=":
            i += 1
        elif text[end: end + 1] == "." and text[end + 1: end + 2].strip():
            yield found[i + 2][0], word
            i += 3
        else:
            yield word, None
            i += 1


def split(text, *marks):
    """The first of the marks that stands outside brackets, with what is before and behind it."""
    depth = 0
    for m in TOKEN.finditer(text):
        depth += (m.group() in "({") - (m.group() in ")}")
        if depth == 0 and m.group() in marks:
            return m.group(), text[: m.start()], text[m.end():]
    return None, text, ""


def indent(line):
    return len(line) - len(line.lstrip())


class Declaration:
    """One name of a file. Each part of it has its lines' numbers and its text; of a theorem only the statement counts."""

    def __init__(self, file, name, definition):
        self.file, self.name, self.definition = file, name, definition
        self.statement, self.whole = [], []

    def add(self, lines, text, statement=True):
        self.whole.append((lines, text))
        if statement:
            self.statement.append((lines, text))


class File:
    def __init__(self, file):
        self.file, self.imports, self.aliases, self.declared = file, {}, {}, {}

    def use(self, line):
        m = USE.match(line)
        if not m or (m[2] is None and not m[3] and not line.startswith("pub use")) or re.search(r" as ", m[2] or ""):
            raise Unread(f"{self.file}: an import that is not understood: {line}")
        if m[2] is not None:
            self.imports.update({name.strip(): m[1] for name in m[2].split(",")})
        elif m[3]:
            self.aliases[m[3]] = m[1]


class Specs(File):
    def __init__(self, file, text):
        super().__init__(file)
        text = re.sub(r"\{-.*?-\}", lambda m: re.sub(r"[^\n]", " ", m.group()), text, flags=re.S)
        lines = [re.sub(r"(^|\s)--.*$", "", line).rstrip() for line in text.splitlines()]
        self.block([(n, line) for n, line in enumerate(lines, 1) if line], [])

    def block(self, lines, section):
        """The items of one indentation; section: the headings of the sections around them, whose parameters each declaration takes."""
        items = []
        for n, line in lines:
            # a closing bracket goes on with what it closes
            if not items or indent(line) == indent(lines[0][1]) and line.lstrip()[0] not in "})":
                items.append([])
            items[-1].append((n, line))
        last = []
        for item in items:
            last = self.item(item, section, last)

    def item(self, item, section, last):
        numbers, text = [n for n, _ in item], "\n".join(line for _, line in item)
        words = text.split()
        marks = words[: next(k for k, w in enumerate(words) if w not in MARKS)]
        kind, name = (words[len(marks):] + [""])[:2]
        if kind == "use":
            self.use(" ".join(words))
        elif kind == "module":
            end = next((k for k, (_, line) in enumerate(item) if line.endswith(" where")), None)
            if name != "_" or end is None:
                raise Unread(f"{self.file}:{numbers[0]}: a module that is no section")
            heading = "\n".join(line for _, line in item[: end + 1]).replace("module _", "")
            self.block(item[end + 1:], section + [(numbers[: end + 1], heading)])
        elif kind in ("data", "record"):
            one = self.declare(name, True, section)
            one.add(numbers, text)
            inner = [line for _, line in item[1:]] if kind == "data" else []
            for line in (line for line in inner if indent(line) == indent(inner[0])):
                self.declared.update({constructor: one for constructor in split(line, ":")[1].split() if constructor not in self.declared})
        elif kind not in ("mod", "infix", "infixl", "infixr"):
            mark, before, after = split(text, ":", "=")
            if mark == ":" and kind != "unfolding":
                last = [self.declare(n, bool({"unfoldable", "abbrev"} & set(marks)), section) for n in re.sub(r"\{.*?\}", "", before).split()
                        if n not in MARKS]
                for one in last:
                    one.add(numbers, after)
                return last
            if not last:
                raise Unread(f"{self.file}:{numbers[0]}: a clause without its signature")
            for one in last:
                one.add(numbers, "" if kind == "unfolding" else text, False)
            return last
        return []

    def declare(self, name, definition, section):
        # a private name that two sections declare counts as both
        if name not in self.declared or self.declared[name].name != name:
            self.declared[name] = Declaration(self.file, name, definition)
        for lines, text in section:
            self.declared[name].add(lines, text)
        return self.declared[name]


class Source(File):
    """A file of source: its types, and its functions with their contracts."""

    def __init__(self, file, text):
        super().__init__(file)
        self.functions, self.variants = {}, set()
        lines = [re.sub(r"//.*$", "", line).rstrip() for line in text.splitlines()]
        for n, line in enumerate(lines):
            if m := re.match(r"ghost use (.*);$", line):
                self.use("use " + m[1])
            elif m := re.match(r"(?:pub )?use ((?:\w+::)+)(?:(\w+)|\{(.*)\});$", line):
                self.imports.update({name: m[1] + name for name in re.findall(r"\w+", m[2] or m[3])})
            elif re.match(r"(?:pub )?(?:ghost )?use\b", line):
                raise Unread(f"{file}:{n + 1}: an import that is not understood: {line}")
            elif m := re.match(r"(?:pub )?(struct|enum) (\w+)", line):
                end = n if line.endswith(";") else lines.index("}", n)
                one = self.declared[m[2]] = Declaration(file, m[2], True)
                self.variants.update(re.findall(r"^ +(\w+)", "\n".join(lines[n: end]), re.M) if m[1] == "enum" else [])
                one.add([k + 1 for k in range(n, end + 1) if lines[k]], self.words("\n".join(lines[n: end + 1])))
            elif m := re.match(r' *(pub )?(?:extern "C" )?fn (\w+)', line):
                end = next(k for k in range(n, len(lines)) if re.search(r"^ *\{$|[)>\w] \{$", lines[k]))
                # (the methods of two types may have one name)
                called = m[2] if m[2] not in self.functions else f"{m[2]}:{n + 1}"
                one = self.functions[called] = Declaration(file, m[2], False)
                one.public = bool(m[1])
                head, *contract = re.split(r"^ +(requires|ensures)\b\*?(?: \w+)?", "\n".join(lines[n: end + 1]).rsplit("{", 1)[0], flags=re.M)
                # `result` is what the function returns, and a clause's name none of its words
                clauses = [re.sub(r"(?<![\w.])result\b", "", clause) for clause in contract[1::2]]
                one.add([k + 1 for k in range(n, end + 1) if lines[k].strip() not in ("", "{")], "\n".join([self.words(head), *clauses]))
                one.asks = "requires" in contract[::2]

    def words(self, text):
        """Source is written closer than specs: `Reader<'a>`."""
        return " ".join(re.findall(r"\w+", text))


class Tree:
    """All files of the crates, and what a name in one of them stands for."""

    def __init__(self, root):
        crates = root / "crates"
        self.crates = sorted(path.name for path in crates.iterdir())
        self.files = {}
        # a theorem stands in specs/, or in a file right in proofs/: so it does where an edit of a definition under it must be refused there
        for kind, pattern in ((Specs, "*/specs/*.antt"), (Specs, "*/proofs/*.antt"), (Source, "*/src/**/*.rt")):
            for path in sorted(crates.glob(pattern)):
                file = path.relative_to(crates).as_posix()
                self.files[file] = kind(file, path.read_text())

    def of(self, kind):
        return [f for f in self.files.values() if isinstance(f, kind)]

    def resolve(self, file, name, qualifier):
        """A Declaration; the name of a library's, as text; or None for a local name or a word of the language."""
        here = self.files[file]
        if (qualifier or name) == "Rattle":
            raise Unread(f"{file}: a name by its whole path")
        if qualifier in here.aliases:
            return self.imported(file, name, here.aliases[qualifier])
        for known in (name, f"◌{name}◌") if qualifier is None else (qualifier,):
            if known in here.declared:
                return here.declared[known]
            if known in here.imports:
                return self.imported(file, known, here.imports[known])
        return None

    def imported(self, file, name, module):
        if "::" in module:
            # `answers::numbers::Numbers`: a type of source, or a function, which no contract can speak of
            crate, *inner, name = re.sub(r"^crate::", file.split("/")[0] + "::", module).split("::")
            target = self.files.get(f"{crate}/src/{'/'.join(inner) or 'lib'}.rt")
            return target.declared.get(name) if target else None
        owner = re.match(r"Rattle\.(\w+)\.", module)
        if module.startswith(LIBRARY) or owner and owner[1] not in self.crates:
            return name
        # `Rattle.plan.specs.Lists` or `Rattle.flash.proofs.HarmAllows`; `..declared.numbers.Numbers` for a type of source, and `.TheVariants` behind it for the variants of an enum
        m = re.match(r"Rattle\.(\w+)\.(specs|proofs)\.(declared\.)?(.+?)(?:\.TheVariants)?$", module)
        if not m:
            raise Unread(f"{file}: a module that is not understood: {module}")
        crate, folder, declared, path = m.groups()
        if declared:
            *inner, name = path.split(".")
            path = f"{crate}/src/{'/'.join(inner) or 'lib'}.rt"
        else:
            path = f"{crate}/{folder}/{path}.antt"
        if path not in self.files or name not in self.files[path].declared:
            raise Unread(f"{file}: {name} is not declared in {path}")
        return self.files[path].declared[name]
