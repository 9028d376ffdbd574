"""Every wrong program of the must-fail edits is refused by the fact that it breaks, and docs/PROMISES.md names it.

An edit holds one or more wrong programs, so that a crate is not proved again for each. Each is headed by a line

    wrong: NAME: PLACE: FACT

PLACE is the function (`numbers::done`), or for a changed definition the file that fails (`specs/Examples.antt`); FACT is what no longer
holds there: a goal of the function (`returns-in-Resumed`) or a theorem. No two of an edit break the same fact, so none can hide another.
`rt` counts an edit as refused if any proof of its crate fails, and says the first. This has the prover check each edit as `rt` does, and looks
in all that it says for each fact: not one that only follows from another, and not one by which the proof merely no longer fits the code.

It runs after `rt ci` or `rt must-fail`, on the libraries that they built. What the prover said is kept in target/wrong_programs, and read from
there as long as nothing that it rests on has changed. `check.py CRATE..` looks at these crates alone, `check.py --self-test` tries the reading.
"""
import concurrent.futures
import hashlib
import importlib.machinery
import importlib.util
import os
import pathlib
import re
import shutil
import signal
import sys
import tempfile

ROOT = pathlib.Path(__file__).resolve().parents[2]
HEAD = re.compile(r"^wrong: (\w+): (\S+): (\S+)$", re.M)
ERROR = re.compile(r"^(\S+?):\d+:\d+: error: `([^`]*)`: (.*)$")
OPEN = re.compile(r"^note: \S+:\d+:\d+: it is not proved that .*?\(`([^`]*)`\)")
PLACE = re.compile(r"(?:^|/)(?:(specs/[^:]+\.antt)|proofs/(?:([^/:]+\.antt)|(.+)/(?:Answers|Invariants|Proof)\.antt))$")
FOLLOWS = re.compile(r"was not admitted|was rejected")
# The proof names a goal or a fact that the changed code does not have.
UNFIT = re.compile(r"has no field|has no `|not in scope|not be named")


def broken(log, crate):
    """The facts that the prover refused for themselves, as (place, fact)."""
    facts, goals, unfit = set(), set(), set()
    for line in log.splitlines():
        error, goal = ERROR.match(line), OPEN.match(line)
        place = error and PLACE.search(error[1])
        if place and not FOLLOWS.search(error[3]):
            # a function that calls itself has its proof under +NAME
            where = place[1] or place[2] and f"proofs/{place[2]}" or place[3].lstrip("+").replace("/", "::")
            if UNFIT.search(error[3]):
                unfit.add(where)
            else:
                facts.add((where, error[2]))
        elif goal:
            goals.add(goal[1])
        elif line.startswith(f"fn {crate}::"):
            # what was said of goals that are open is of the function that this line tells of
            place, _, said = line.removeprefix(f"fn {crate}::").partition(": ")
            tried = re.search(r"`search` did not prove ([^;]*)", said)
            goals.update(re.findall(r"`([^`]*)`", tried[1]) if tried else ())
            # (where an answer no longer fits, a goal may be open for its new name alone)
            facts.update((place, goal) for goal in goals if place not in unfit)
            goals = set()
    return facts


def faults_of(title, edit, log, crate):
    """What is wrong with an edit, given its text and the prover's log of it."""
    heads = HEAD.findall(edit)
    parts = re.split(r"^wrong: ", edit, flags=re.M)[1:]
    if not heads or len(parts) != len(heads) or any("\nold: " not in part for part in parts):
        yield f"{title}: each wrong program wants a line `wrong: NAME: PLACE: FACT` and a change"
    if len({(place, fact) for _, place, fact in heads}) != len(heads):
        yield f"{title}: two wrong programs break one fact, and one could hide that the other passes"
    facts = broken(log, crate)
    for name, place, fact in heads:
        if (place, fact) not in facts:
            yield f"{title}: {name} is not refused at {place}: {fact}"


def kit():
    """The functions of the `rt` that is installed."""
    at = os.path.realpath(shutil.which("rt") or sys.exit("rt is missing"))
    loader = importlib.machinery.SourceFileLoader("rt", at)
    made = importlib.util.module_from_spec(importlib.util.spec_from_loader("rt", loader))
    loader.exec_module(made)
    os.environ.pop(made.rtlib.ALLOW_C, None)
    # (its first call sets a signal's handler, which only the main thread may)
    made.rtlib.guarded()
    made.share_work(False)
    return made


def left_by_ci(crate):
    """Whether the crate's library is one that `rt ci` left, which has no stamp, made after all that it rests on."""
    files = [file for it in (crate, *crate.below()) for part in ("src", "specs", "proofs") for file in pathlib.Path(it.folder, part).rglob("*")]
    # (the folder, as the files in it may be links to what an earlier run made)
    made = pathlib.Path(crate.rlib)
    is_new = made.exists() and made.stat().st_mtime >= max(file.stat().st_mtime for file in files)
    return is_new and not pathlib.Path(crate.folder, "out/rlib/stamp").exists()


def logs_of(rt, crate, edits):
    """What the prover says of each edit of a crate, or why it says nothing."""
    below, room, found = crate.below(), None, {}
    for edit in edits:
        sum = hashlib.sha256(f"{crate.stamp()} {edit.name} {edit.read_text()}".encode()).hexdigest()
        kept = ROOT / "target/wrong_programs" / crate.name / f"{edit.stem}.log"
        if kept.exists() and kept.read_text().partition("\n")[0] == sum:
            found[edit] = kept.read_text().partition("\n")[2]
            continue
        if not room:
            if not all(left_by_ci(it) for it in below) and any(it.build_rlib(["--jobs", "1"], anew=False) for it in below):
                return {edit: "a library below is not proved" for edit in edits}
            # the edits of a crate go one over the other, and the first over what `rt check` kept
            room = tempfile.TemporaryDirectory(prefix="wrong-programs-")
            if os.path.isdir(f"{crate.folder}/out/incremental"):
                rt.linked(f"{crate.folder}/out/incremental", f"{room.name}/kept")
            os.makedirs(f"{room.name}/kept", exist_ok=True)
        texts, why = rt.read_edit(str(edit), crate.folder)
        if why:
            found[edit] = why
            continue
        for _ in range(2):
            ran = rt.checked(crate, texts, ["--jobs", "1"], f"{room.name}/kept")
            # (killed, most likely for memory: once more)
            if ran.returncode != -signal.SIGKILL:
                break
        found[edit] = ran.stdout
        if ran.returncode == 1 and "\nlogic=not-proved" in ran.stdout:
            kept.parent.mkdir(parents=True, exist_ok=True)
            kept.write_text(f"{sum}\n{ran.stdout}")
    return found


def public_functions(crate):
    """The functions that other crates can call, each with how a row of docs/PROMISES.md names it."""
    source = ROOT / "crates" / crate / "src"
    if not (source / "lib.rt").exists():
        return
    modules = re.findall(r"^pub mod (\w+);", (source / "lib.rt").read_text(), re.M)
    for file in [source / "lib.rt"] + [source / f"{m}.rt" for m in modules]:
        text = file.read_text()
        for name in re.findall(r'^\s*pub (?:extern "C" )?fn (\w+)', text, re.M):
            yield name, rf"`(?:{crate}::)?(?:\w+::)?{name}`"
        for made, of in re.findall(r"^impl From<(\w+)> for (\w+)", text, re.M):
            yield f"{of}::from", rf"`{of}::from` of an? `?(?i:{made})\b`?"
        for right, left in re.findall(r"^impl Add<(\w+)> for (\w+)", text, re.M):
            yield f"{left} + {right}", rf"`{crate}::{left} \+ {crate}::{right}`"


def self_test():
    edit = "wrong: a: m::f: returns\nfile: src/lib.rt\nold: 1\nnew: 2\n\nwrong: b: g: returns-then-x\nold: 3\nnew: 4\n"
    f = "./proofs/m/f/Answers.antt:1:2: error: `returns`: as printed, the two types first differ\nfn c::m::f: not proved\n"
    note = "note: src/lib.rt:7:1: it is not proved that it holds when it returns (`returns-then-x`); `search` gave up (`y`)\n"
    g = f"{note}fn c::g: no proof: expected answers in ./proofs/g/Answers.antt; `search` did not prove `returns-then-x`; it calls `c::h`\n"
    follows = "./proofs/m/f/Answers.antt:1:2: error: `returns`: `met` was not admitted (it has holes)\n"
    unfit = "./proofs/m/f/Answers.antt:1:2: error: `returns`: record `Lts.After-slice` has no field `args`\n"
    law = "./specs/E.antt:1:2: error: `e_holds`: expected type `⊥`\n./proofs/L.antt:1:2: error: `law`: expected type `⊥`\n"
    assert not list(faults_of("e", edit, f + g, "c"))
    assert not list(faults_of("e", edit, f + note + "fn c::g: not proved\n", "c"))
    assert len(list(faults_of("e", edit, g, "c"))) == 1
    assert len(list(faults_of("e", edit, f, "c"))) == 1
    assert len(list(faults_of("e", edit, f + note + "fn c::h: not proved\nfn c::g: not proved\n", "c"))) == 1
    assert len(list(faults_of("e", edit, follows + g, "c"))) == 1
    assert len(list(faults_of("e", edit, unfit + g, "c"))) == 1
    renamed = "./proofs/g/Answers.antt:1:2: error: `returns-then-y`: module `c.g.Goals` has no `returns-then-y` that can be named\n"
    assert len(list(faults_of("e", edit, f + renamed + g, "c"))) == 1
    assert len(list(faults_of("e", edit.replace("b: g: returns-then-x", "b: m::f: returns"), f, "c"))) == 1
    assert len(list(faults_of("e", edit.replace("old: 3", ""), f + g, "c"))) == 1
    assert len(list(faults_of("e", edit + "\nwrong: c: g\nold: 5\nnew: 6\n", f + g, "c"))) == 1
    assert broken(law + f + g, "c") == {("specs/E.antt", "e_holds"), ("proofs/L.antt", "law"), ("m::f", "returns"), ("g", "returns-then-x")}


def main():
    self_test()
    if "--self-test" in sys.argv:
        return
    os.chdir(ROOT)
    rt = kit()
    listed = (line.split("#")[0] for line in (ROOT / "crates.txt").read_text().splitlines())
    crates = [line.split(":")[0].split()[0] for line in listed if ":" in line]
    chosen = sys.argv[1:] or crates
    if not set(chosen) <= set(crates):
        sys.exit(f"no crate in crates.txt: {' '.join(set(chosen) - set(crates))}")
    made = {it.name: it for it in rt.rtlib.crates_below(str(ROOT))}
    edits = {it: sorted((ROOT / "crates" / it / "must-fail").glob("*.edit")) for it in crates if it in chosen}
    promises = (ROOT / "docs/PROMISES.md").read_text()
    faults, names = [], []
    lanes = int(os.environ.get("RT_JOBS") or os.cpu_count())
    with concurrent.futures.ThreadPoolExecutor(lanes) as pool:
        # those with most edits first
        order = sorted((it for it in edits if edits[it]), key=lambda it: -len(edits[it]))
        tried = {it: pool.submit(logs_of, rt, made[it], edits[it]) for it in order}
    for crate in (it for it in edits if edits[it]):
        for edit, log in tried[crate].result().items():
            title, text = f"{crate}/{edit.stem}", edit.read_text()
            if "\nlogic=not-proved" not in log:
                faults.append(f"{title}: the prover gave no verdict on it: {log[:300]}")
            texts, _ = rt.read_edit(str(edit), made[crate].folder)
            bad = [line for line in log.splitlines() if texts and rt.unread(line, texts)]
            faults += [f"{title}: a bad edit to rt: {line[:300]}" for line in bad[:1]]
            faults += faults_of(title, text, log, crate)
            names += [name for name, _, _ in HEAD.findall(text)]
    faults += [f"{name}: docs/PROMISES.md does not name it" for name in names if f"`{name}`" not in promises]
    # `line` promises nothing, and `scale_c` what `scale` does, which it calls
    functions = [(crate, *it) for crate in edits if crate not in ("line", "scale_c") for it in public_functions(crate)]
    for crate, function, named in functions:
        rows = re.findall(rf"^\| {named} .*$", promises, re.M)
        tried = {name for row in rows for name in re.findall(r"`(\w+)`", row) if name in names}
        if len(tried) < 2:
            faults.append(f"{crate}::{function}: docs/PROMISES.md names {len(tried)} wrong programs of two")
    if not names or not functions:
        faults.append("no wrong program, or no public function: nothing was looked at")
    for fault in faults:
        print(fault, file=sys.stderr)
    if faults:
        sys.exit(1)
    print(f"{len(names)} wrong programs, each refused at its own fact; two or more for each of {len(functions)} public functions")


main()
