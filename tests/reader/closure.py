"""What a reader must believe: every definition that the entry points' contracts and the demands' theorems speak of.

It begins with the contracts of the entry points (the public functions in `src/lib.rt` of the crates that docs/PROMISES.md calls so) and the
statements of the theorems that docs/ARCHITECTURE.md names in its tables "From each demand to its theorem". A name in them leads, by the
file's `use` lines, to its declaration, and so on: of a definition the whole counts, of a data type or record its constructors or fields, of
a type that source declares its `struct` or `enum`; of a theorem in the tables the statement alone, with the parameters of the sections that
it stands in. A local variable called as a definition in scope counts as that definition: the list may be too long by that, never too short.
Tables that compute, and instances, have a table of links of their own: what they add is listed apart, for nothing rests on it.

    closure.py              compares both tables, "file by file", of docs/ARCHITECTURE.md: files, lines, names of the library
    closure.py --list       prints them as they should be, with the subjects that they have now; --write puts them in their place
    closure.py --names      prints each definition, and through which other it was reached
    closure.py --self-test  tries all this on a small made-up tree
"""
import pathlib
import re
import sys
import tempfile
import textwrap

sys.dont_write_bytecode = True
from source import Source, Specs, Tree, Unread, names  # noqa: E402

LINKS = "From each demand to its theorem"
TRIED = "What the definitions are tried on"
BELIEVED_TABLE = "What a reader must believe, file by file"
TRIED_TABLE = "What is tried on it, file by file"
HEADING = "| File | Subject (document 01's section) | Lines |\n|---|---|---|"
OF_LIBRARY = "Of the library:"
# words in the tables that are no name of a declaration
WORDS = {"requires", "unsafe", "&mut"}


class Documents:
    def __init__(self, root):
        self.root = root
        self.path = root / "docs/ARCHITECTURE.md"
        self.text = self.path.read_text()

    def section(self, level, title):
        m = re.search(rf"^{level} {re.escape(title)}$(.*?)(?=^#{{2,{len(level)}}} |\Z)", self.text, re.M | re.S)
        if not m:
            raise Unread(f"docs/ARCHITECTURE.md has no section `{title}`")
        return m[1]

    def entry_crates(self, crates):
        m = re.search(r"^The entry points have no `requires`: (.*?)\n\n", (self.root / "docs/PROMISES.md").read_text(), re.M | re.S)
        if not m:
            raise Unread("docs/PROMISES.md does not say which the entry points are")
        return [word for word in re.findall(r"`(\w+)`", m[1].split(". ")[0]) if word in crates]

    def links(self):
        """The words of the tables of demands, row by row, and whether the row is of what the definitions are tried on."""
        tried = self.section("###", TRIED)
        for row in re.findall(r"^\|.*\|$", self.section("##", LINKS), re.M):
            yield [word for word in re.findall(r"`([^`]+)`", row) if not re.search(r"\s", word)], row in tried

    def table(self, title):
        """For each file of a reader's table its subject and its lines."""
        rows = re.findall(r"^\| `([^`]+)` \| (.*?) \| *(\d*) *\|$", self.section("###", title), re.M)
        return {file: (subject, int(lines or 0)) for file, subject, lines in rows}

    def library(self):
        m = re.search(rf"^{OF_LIBRARY}(.*?)\n\n", self.section("###", BELIEVED_TABLE), re.M | re.S)
        return set(re.findall(r"`([^`]+)`", m[1])) if m else set()

    def dead_paths(self):
        """The paths that are named anywhere in the document, and lead nowhere."""
        for word in sorted(set(re.findall(r"`([a-z][\w./-]*)`", self.text, re.I))):
            if "/" in word or word.endswith((".antt", ".rt")):
                if not any(path for top in ("", "crates/", "crates/*/", "crates/*/specs/", "crates/*/proofs/") for path in self.root.glob(top + word)):
                    yield f"`{word}`: docs/ARCHITECTURE.md names it, and there is no such file"


def roots_of(tree, docs):
    """Contracts and theorems; what is tried; and what is wrong with the documents that name them."""
    roots, trials, faults = [], [], list(docs.dead_paths())
    for crate in docs.entry_crates(tree.crates):
        entries = [one for one in tree.files[f"{crate}/src/lib.rt"].functions.values() if one.public]
        faults += [f"{crate}::{one.name}: an entry point, and it has a `requires`" for one in entries if one.asks]
        roots += entries
    known = {name for file in tree.of(Source) for name in [*file.functions, *file.declared, *file.variants]} | WORDS | set(tree.crates)
    for row, tried in docs.links():
        for word in row:
            where = [file for file in tree.of(Specs) if word in file.declared]
            # where several files declare it, those that the row names
            named = [file for file in where if any(f"/{file.file}".endswith(f"/{path}") for path in row if path.endswith(".antt"))]
            (trials if tried else roots).extend(file.declared[word] for file in named or where)
            if not where and "/" not in word and not word.endswith(".antt") and word.split("::")[-1] not in known:
                faults.append(f"`{word}`: named in `{LINKS}`, and nothing declares it")
    return roots, trials, faults


def closure(tree, roots):
    """The definitions, each with the declaration that led to it, and the names of the library."""
    reached = {one: None for one in roots if one.definition}
    library, todo = set(), list(dict.fromkeys(roots))
    while todo:
        one = todo.pop()
        for _, text in one.whole if one in reached else one.statement:
            for name, qualifier in names(text):
                found = tree.resolve(one.file, name, qualifier)
                if isinstance(found, str):
                    library.add(found)
                elif found and found is not one and found not in reached:
                    reached[found] = one
                    todo.append(found)
    return reached, library


def lines_of(reached):
    """For each file how many lines its definitions take."""
    files = {}
    for one in reached:
        files.setdefault(one.file, set()).update(n for numbers, _ in one.whole for n in numbers)
    return {file: len(lines) for file, lines in sorted(files.items())}


def faults_of(docs, tables, library):
    """Where the reader's tables differ from what is reached."""
    for title, files in tables.items():
        table = docs.table(title)
        for file in sorted(files.keys() - table.keys()):
            yield f"{file}: {files[file]} lines of it are reached, and `{title}` leaves it out"
        for file in sorted(table.keys() - files.keys()):
            yield f"{file}: in `{title}`, and nothing of it is reached"
        for file in sorted(files.keys() & table.keys()):
            if table[file][1] != files[file]:
                yield f"{file}: {files[file]} lines of it are reached, `{title}` says {table[file][1]}"
            if not table[file][0].strip():
                yield f"{file}: `{title}` does not say what it is about"
    for name in sorted(library ^ docs.library()):
        yield f"{name}: of the library, {'and the document leaves it out' if name in library else 'in the document and not reached'}"


def rows_of(docs, title, files):
    """A table as it should be: its rows in their present order, then the files that are new, with what their first line says."""
    subjects = {file: subject for file, (subject, _) in docs.table(title).items() if file in files}
    for file in files:
        first = re.match(r"(?:--|//) (.+?)(?:: |\. |\.?$)", (docs.root / "crates" / file).read_text(), re.M)
        subjects.setdefault(file, first[1] if first else "")
    return "\n".join([HEADING] + [f"| `{file}` | {subject} | {files[file]} |" for file, subject in subjects.items()])


def library_line(library):
    return textwrap.fill(" ".join([OF_LIBRARY, *(f"`{name}`" for name in sorted(library))]), 118, break_on_hyphens=False)


def rewritten(docs, tables, library):
    """The document with both tables as they should be."""
    text = docs.text
    for title, files in tables.items():
        old = docs.section("###", title)
        new = re.sub(r"^\| File \|.*?(?=\n\n)", lambda m: rows_of(docs, title, files), old, count=1, flags=re.M | re.S)
        text = text.replace(old, re.sub(rf"^{OF_LIBRARY}.*?(?=\n\n)", lambda m: library_line(library), new, flags=re.M | re.S))
    return text


def examine(root):
    tree, docs = Tree(root), Documents(root)
    roots, trials, faults = roots_of(tree, docs)
    believed, _ = closure(tree, roots)
    reached, library = closure(tree, roots + trials)
    tables = {BELIEVED_TABLE: lines_of(believed), TRIED_TABLE: lines_of({one for one in reached if one not in believed})}
    return docs, reached, tables, library, faults + list(faults_of(docs, tables, library))


PROMISES = "The entry points have no `requires`: `go` (`code`). Every other function is an inner one.\n\n"
ARCHITECTURE = f"""# It
## Crates
### {BELIEVED_TABLE}
{HEADING}
| `base/specs/Bytes.antt` | bytes | 7 |
| `base/src/lib.rt` | sizes | 3 |
| `code/specs/Laws.antt` | what holds | 2 |

{OF_LIBRARY} `ℕ` `◌≡◌`

### {TRIED_TABLE}
{HEADING}
| `base/specs/Bytes.antt` | one byte | 2 |

### Rules
## {LINKS}
| Sentence | Where |
|---|---|
| it goes | `it_goes` (`code/specs/Laws.antt`), promise of `code::go` |
### {TRIED}
| one | `goes_once` |
## Rest
"""
SPECS = """-- bytes
use Rattle.std.specs.Prelude.{ℕ}
use Rattle.base.specs.declared.Size.{Size}
unfoldable pub twice : ℕ → ℕ
twice n = n + {- not
reached -} n
abbrev pub size_of : Size → ℕ
size_of s = s.bytes
unfoldable pub unused : ℕ → ℕ
unused n = n
abbrev pub once : ℕ
once = 1
pub data Big (n : ℕ) : Type 0 where
  big : Big n
"""
LAWS = """use Rattle.std.specs.Prelude.{◌≡◌}
use Rattle.std.proofs.Common.{refl}
use Rattle.base.specs.declared.Size.{Size}
use Rattle.base.specs.Bytes as bytes
use Rattle.base.specs.Bytes.{Big, unused}
module _ (s : Size) (b : Big s.bytes) where
  holds : bytes.twice s.bytes ≡ 2
  pub it_goes : holds
  unfolding holds
  it_goes = record { unused = unused }
  pub goes_once : bytes.once ≡ 1
"""
CODE = """ghost use Rattle.std.specs.Prelude.{ℕ};
ghost use Rattle.base.specs.Bytes.{size_of, unused};
use base::{Size};
pub fn go(s: Size) -> usize
    ensures unused { result ≡ size_of s }
{
    unused()
}
"""
FILES = {
    "docs/PROMISES.md": PROMISES, "docs/ARCHITECTURE.md": ARCHITECTURE, "crates/base/specs/Bytes.antt": SPECS,
    "crates/base/src/lib.rt": "// a size\npub struct Size {\n    // how many\n    pub bytes: usize,\n}\n",
    "crates/code/specs/Laws.antt": LAWS, "crates/code/src/lib.rt": CODE,
}


def self_test():
    """The made-up tree, and each way in which it may come apart: what is changed, and what then is the fault."""
    def tried(file, old, new):
        with tempfile.TemporaryDirectory() as d:
            for path, text in FILES.items():
                assert path != file or old in text
                target = pathlib.Path(d) / path
                target.parent.mkdir(parents=True, exist_ok=True)
                target.write_text(text.replace(old, new) if path == file else text)
            return [fault.split(": ")[0].strip("`") for fault in examine(pathlib.Path(d))[-1]]

    arch, laws, code = "docs/ARCHITECTURE.md", "crates/code/specs/Laws.antt", "crates/code/src/lib.rt"
    specs = "crates/base/specs/Bytes.antt"
    assert tried(arch, "# It", "# That") == []
    # one definition more: in a statement, in a section's parameter, in a contract, in another definition
    for file, old, new in ((laws, "≡ 2", "≡ unused 2"), (laws, "(b : Big s.bytes)", "(b : Big (unused s.bytes))"),
                           (code, "≡ size_of s", "≡ unused (size_of s)"), (code, "result ≡", "(unused s).now ≡"), (code, "result ≡", "unused.now ≡"),
                           (specs, "= s.bytes", "= unused s.bytes"), (specs, "big : Big n", "big : Big (unused n)")):
        assert tried(file, old, new) == ["base/specs/Bytes.antt"], (file, old)
    # a definition less; the field of a record, a projection, a clause's name and a proof count for nothing
    assert tried(laws, "bytes.twice s.bytes", "s.bytes") == ["base/specs/Bytes.antt"]
    assert tried(laws, "{ unused = unused }", "{ unused = 1 }") == []
    for new in ("s.unused ≡", "(size_of s).unused ≡", "s.bytes.unused ≡", "λ (r : Size). r ≡"):
        assert tried(code, "result ≡", new) == [], new
    # another row, none, another count, no subject
    assert tried(arch, "| `base/src/lib.rt` | sizes | 3 |\n", "") == ["base/src/lib.rt"]
    assert tried(arch, "| sizes |", "|  |") == ["base/src/lib.rt"]
    assert tried(arch, "| 3 |", "| 4 |") == ["base/src/lib.rt"]
    assert tried(arch, "| `base/src/lib.rt`", "| `code/src/lib.rt` | code | 3 |\n| `base/src/lib.rt`") == ["code/src/lib.rt"]
    assert tried(arch, "| one byte | 2 |", "| one byte | 3 |") == ["base/specs/Bytes.antt"]
    assert tried(laws, "bytes.once ≡ 1", "bytes.twice 1 ≡ 1") == ["base/specs/Bytes.antt"]
    assert tried(arch, " `◌≡◌`\n", " `◌≡◌` `refl`\n") == ["refl"]
    assert tried(arch, " `◌≡◌`", "") == ["◌≡◌"]
    # links that lead nowhere; an entry point that asks something
    assert tried(arch, "(`code/specs/Laws.antt`)", "(`code/specs/Law.antt`)") == ["code/specs/Law.antt"]
    assert "it_went" in tried(arch, "`it_goes`", "`it_went`")
    assert tried(arch, "`code::go`", "`code::went`") == ["code::went"]
    for asked in ("requires { s ≡ s }", "requires s_is_s { s ≡ s }"):
        assert tried(code, "    ensures", f"    {asked}\n    ensures") == ["code::go"]


def main():
    sys.stdout.reconfigure(encoding="utf-8")
    self_test()
    if "--self-test" in sys.argv:
        return
    docs, reached, tables, library, faults = examine(pathlib.Path(__file__).resolve().parents[2])
    if "--list" in sys.argv:
        print("\n\n".join([*(rows_of(docs, title, files) for title, files in tables.items()), library_line(library)]))
    elif "--names" in sys.argv:
        for one in sorted(reached, key=lambda one: (one.file, one.name)):
            by = reached[one]
            print(f"{one.file}: {one.name}" + (f", by {by.name} of {by.file}" if by else ""))
    elif "--write" in sys.argv:
        docs.path.write_text(rewritten(docs, tables, library))
    else:
        for fault in faults:
            print(fault, file=sys.stderr)
        if faults:
            print("tests/reader/closure.py --write mends the files and lines of the tables", file=sys.stderr)
            sys.exit(1)
        for title, files in tables.items():
            print(f"{title}: {len(files)} files, {sum(files.values())} lines")


try:
    main()
except Unread as fault:
    sys.exit(str(fault))
