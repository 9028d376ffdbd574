"""What an archive with one rule of document 01 broken makes of the edges. The proved archive cannot be built wrong, so the model of
tests/model stands in for it: archive.rs puts it behind the functions of include/scale.h, and the edges' driver is linked with that.

As it is, it has to print every line of tests/edges/expected, so each of them is held to two implementations. Then each wrong version:

    wrong: NAME
    edge: LINE
    file: FILE
    old: TEXT
    new: TEXT

TEXT of old stands once in the FILE of tests/model, and new takes its place; old and new may come again. The version has to be carried out
to the script's end, and each LINE that it names, a case's name in tests/edges/expected, has to come out otherwise than expected.
`cuts` commands are left out: they take most of the time, and no version names one.
"""
import concurrent.futures
import os
import pathlib
import re
import shutil
import subprocess
import sys

ROOT = pathlib.Path(__file__).resolve().parents[2]
HERE = ROOT / "tests/wrong_archives"
OUT = ROOT / "target/wrong_archives"
DRIVER = OUT / "driver.o"


def read(path):
    return (ROOT / path).read_text()


SCRIPT = re.sub(r"(?m)cuts \d[^;\n]*", "", read("tests/edges/script"))
EXPECTED = [line for line in read("tests/edges/expected").splitlines() if not line.endswith(" ended as the one never cut")]


def name_of(line):
    return line.rpartition(": ")[0]


def versions():
    """Each wrong version as its name, the lines it names, and its changes."""
    for block in re.split(r"(?m)^wrong: ", read("tests/wrong_archives/versions"))[1:]:
        name, *lines = [line for line in block.splitlines() if line and not line.startswith("#")]
        edges, changes, file, old = [], [], None, None
        for line in lines:
            word, _, text = line.partition(": ")
            if word == "edge":
                edges.append(text)
            elif word == "file":
                file = text
            elif word == "old":
                old = text
            elif word == "new" and file and old:
                changes.append((file, old, text))
                old = None
            else:
                sys.exit(f"versions: {name}: cannot read: {line}")
        if not edges or not changes or old:
            sys.exit(f"versions: {name}: wants an edge, and a change")
        yield name, edges, changes


def run(command, **more):
    return subprocess.run(command, cwd=ROOT, capture_output=True, text=True, timeout=120, **more)


def printed(name, changes):
    """What the edges' driver prints on the model with these changes; or a problem."""
    folder = OUT / name
    shutil.rmtree(folder, ignore_errors=True)
    folder.mkdir(parents=True)
    for source in [HERE / "archive.rs", *(ROOT / "tests/model").glob("*.rs")]:
        shutil.copy(source, folder)
    for file, old, new in changes:
        text = (folder / file).read_text()
        if text.count(old) != 1:
            return None, f"{old!r} stands {text.count(old)} times in {file}"
        (folder / file).write_text(text.replace(old, new))
    archive, program = folder / "libscale.a", folder / "edges"
    for command in (["rustc", "--edition", "2024", "--cap-lints", "allow", "--crate-type", "staticlib", "-C", "panic=abort", "-o", archive,
                     folder / "archive.rs"], ["gcc", "-o", program, DRIVER, archive]):
        built = run(command)
        if built.returncode:
            return None, f"{command[0]} says: {built.stderr.strip()}"
    done = run([program], input=SCRIPT)
    if done.returncode:
        return None, f"the script was not carried out: {done.stderr.strip()}"
    return done.stdout.splitlines(), None


def faults_of(name, edges, changes):
    got, problem = printed(name, changes)
    if problem:
        return [f"{name}: {problem}"]
    if [name_of(line) for line in got] != [name_of(line) for line in EXPECTED]:
        return [f"{name}: other cases were carried out than those expected"]
    differing = [name_of(line) for line, wanted in zip(got, EXPECTED) if line != wanted]
    if not changes:
        return [f"the model itself: {line}: not as expected" for line in differing]
    names = [name_of(line) for line in EXPECTED]
    faults = [f"{name}: {names.count(edge)} cases are called {edge!r}" for edge in edges if names.count(edge) != 1]
    return faults + [f"{name}: passes {edge!r}" for edge in edges if edge not in differing]


def main():
    OUT.mkdir(parents=True, exist_ok=True)
    built = run(["gcc", "-std=c99", "-O1", "-Iinclude", "-c", "-o", DRIVER, "tests/edges/driver.c"])
    if built.returncode:
        sys.exit(built.stderr)
    wrong = list(versions())
    if not wrong or len({name for name, _, _ in wrong}) != len(wrong):
        sys.exit("versions: none, or two of one name")
    with concurrent.futures.ThreadPoolExecutor(os.cpu_count()) as pool:
        faults = sum(pool.map(lambda version: faults_of(*version), [("as_it_is", [], []), *wrong]), [])
    for fault in faults:
        print(fault, file=sys.stderr)
    if faults:
        sys.exit(1)
    named = sum(len(edges) for _, edges, _ in wrong)
    print(f"wrong archives: the model prints {len(EXPECTED)} lines as expected; {len(wrong)} wrong versions fail at the {named} lines they name")


main()
