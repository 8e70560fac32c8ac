"""Tries planted bugs and their twins: tests/edits.sh says how."""
import concurrent.futures
import os
import pathlib
import re
import shutil
import subprocess
import sys
import tempfile

TOP = pathlib.Path(__file__).resolve().parent.parent
PARTS = ["src", "specs", "proofs"]


def pairs(edit):
    """File, old text, wrong text and equal text of each pair of an edit; the equal text is None where it has none."""
    found, file = [], None
    for line in edit.read_text().splitlines():
        word, _, text = line.partition(": ")
        if word == "file":
            file = text.strip()
        elif word == "old":
            found.append([file, text, None, None])
        elif word in ("new", "same"):
            found[-1][2 if word == "new" else 3] = text
    return found


def function_at(file, text, place):
    """The end of the path by which the prover names the function in whose text a place stands; its file's module, if it is in none."""
    module = [] if file in ("src/lib.rt", "src/main.rt") else file.removeprefix("src/").removesuffix(".rt").split("/")
    before = re.sub(r"//[^\n]*", "", text[:place])
    name = None
    for found in re.finditer(r"\bfn\s+(\w+)", before):
        name = found
    if not name:
        return "::".join(module)
    around = None
    for found in re.finditer(r"(?m)^(?:impl\b(?:<[^>]*>)?\s+(?:(\w+)(?:<[^>]*>)?\s+for\s+)?(\w+)|\})", before[: name.start()]):
        around = found[2] and found[2] + (found[1] or "")
    # a method is named by the module of its type, which another file may have
    return "::".join([around, name[1]] if around else [*module, name[1]])


def functions(crate, edit):
    """Those in which an edit changes something, and those that its lines `only:` name."""
    found = {line.partition(": ")[2].strip() for line in edit.read_text().splitlines() if line.startswith("only: ")}
    for file, old, *_ in pairs(edit):
        text = (crate / file).read_text()
        found.add(function_at(file, text, text.index(old)))
    return sorted(found)


def named():
    """What each crate of crates.txt names."""
    lines = [line.split("#")[0].partition(":") for line in (TOP / "crates.txt").read_text().splitlines()]
    return {name.split()[0]: rest.split() for name, colon, rest in lines if colon}


def below(name, names, seen):
    """All crates of the repository that a crate stands on, put behind those that are seen."""
    for it in names[name]:
        if it in names and it not in seen:
            below(it, names, seen)
            seen.append(it)
    return seen


def command(crate):
    """The words of a check of a crate over the libraries that `rt ci` has built here."""
    kit = pathlib.Path(shutil.which("rt")).resolve().parent.parent
    names = named()
    library = lambda it: TOP / f"crates/{it}/out/rlib/{it}.rlib" if it in names else kit / f"rlibs/{it}.rlib"
    words = [kit / "bin/rattle", "check", "--crate-name", crate.name, "src/main.rt" if (crate / "src/main.rt").is_file() else "src/lib.rt"]
    for it in ["std", *names[crate.name]]:
        words += ["--extern", f"{it}={library(it)}"]
    for folder in [kit / "rlibs", *(library(it).parent for it in below(crate.name, names, []))]:
        words += ["-L", f"dependency={folder}"]
    words += ["--antt-project", kit / "rattle/logic/antt-project.json", "--logic-built", kit / "logic_built"]
    return [*words, "--links", f"{crate.name}=", "--jobs", "1"]


def link(one, other):
    """A second name for a file that a check replaces and never changes; a copy of any other."""
    os.link(one, other) if one.endswith(".oantt") else shutil.copy2(one, other)


def checked(crate, changes, only, kept, begin=None):
    """What a check of some functions of a copy of the crate says where each text is replaced by another, over what begin holds; it
    keeps in kept what it proved."""
    with tempfile.TemporaryDirectory(prefix="planted-") as room:
        copy = pathlib.Path(room)
        for part in PARTS:
            if (crate / part).is_dir():
                shutil.copytree(crate / part, copy / part)
        for file, old, text in changes:
            (copy / file).write_text((copy / file).read_text().replace(old, text))
        if begin:
            shutil.copytree(begin, kept, copy_function=link)
        words = [*command(crate), "--incremental", kept, *(word for it in only for word in ("--only", it))]
        return subprocess.run(words, cwd=copy, stdin=subprocess.DEVNULL, stdout=subprocess.PIPE, stderr=subprocess.STDOUT, text=True)


def counts(done):
    """How many functions a check was asked for, and how many it proved, by its last line."""
    found = re.match(r"only=(\d+) proved=(\d+)", (done.stdout.splitlines() or [""])[-1])
    return (int(found[1]), int(found[2])) if found else None


def bug_refused(done):
    """Whether the prover refused a bug for what it does, and what to say."""
    lines = done.stdout.splitlines()
    told = [line for line in lines if ": error" in line or "is not proved that" in line]
    if any(re.search(r"\berror\[[\w-]+\]", line) for line in lines) or not counts(done):
        return False, f"DID NOT REACH THE PROVER: {' '.join([*told, *lines[-1:]][:1])[:200]}"
    asked, proved = counts(done)
    if done.returncode == 0 or proved == asked:
        return False, "NOT REFUSED"
    return done.returncode == 1, f"refused: {' '.join(told[:1])[:120]}"


def twin_proved(done):
    """Whether a twin was proved, and what to say."""
    told = [line for line in done.stdout.splitlines() if ": error" in line or "is not proved that" in line]
    return done.returncode == 0, "twin still proved" if done.returncode == 0 else f"TWIN FALLS TOO: {' '.join(told[:1])[:200]}"


def try_crate(crate, edits, bugs, twins):
    """Lines to print of the edits of a crate, and how many passed: first the functions that they change as they stand, and over
    what that proved, as asked for, each bug of planted/ and each twin."""
    lines, passed = [], 0
    with tempfile.TemporaryDirectory() as room:
        only = sorted({it for edit in edits for it in functions(crate, edit)})
        stands = checked(crate, [], only, f"{room}/kept")
        if stands.returncode:
            return [f"{crate.name}: NOT PROVED AS IT STANDS: {' '.join(stands.stdout.splitlines()[-1:])[:200]}"], 0
        for number, edit in enumerate(edits):
            answers = []
            for place, judge in [(2, bug_refused)] * (bugs and edit.parent.name == "planted") + [(3, twin_proved)] * twins:
                changes = [(pair[0], pair[1], pair[place]) for pair in pairs(edit) if pair[place] is not None]
                if not changes:
                    answers.append((False, "has no twin"))
                    continue
                kept = f"{room}/{number}-{place}"
                answers.append(judge(checked(crate, changes, functions(crate, edit), kept, f"{room}/kept")))
                shutil.rmtree(kept, ignore_errors=True)
            lines.append(f"{crate.name}/{edit.stem}: {'; '.join(told for _, told in answers)}")
            passed += all(passes for passes, _ in answers)
    return lines, passed


def misplaced(edit):
    """What of an edit can no longer be applied."""
    crate = edit.parent.parent
    for file, old, new, same in pairs(edit):
        count = (crate / file).read_text().count(old) if (crate / file).is_file() else 0
        if count != 1 or not new or old in (new, same):
            yield f"{crate.name}/{edit.stem}: {count} places in {file} for: {old}"


def look(edits):
    """Whether each edit has its one place, by the texts alone."""
    told = [line for edit in edits for line in misplaced(edit)]
    print("\n".join([*told, f"edits: {len(edits) - len(told)} passed, {len(told)} failed"]))
    return 1 if told else 0


def main(names):
    edits = sorted([*TOP.glob("crates/*/must-fail/*.edit"), *TOP.glob("crates/*/planted/*.edit")])
    if names == ["--look"]:
        return look(edits)
    bugs, twins = names != ["--twins"], names != ["--planted"]
    wanted = lambda edit: {edit.parts[-3], f"{edit.parts[-3]}/{edit.stem}", f"{edit.parts[-3]}/{edit.name}"} & {*names}
    edits = [edit for edit in edits if (wanted(edit) if names and bugs and twins else twins or edit.parent.name == "planted")]
    lacking = [it for it, uses in named().items() for it in uses if it in named() and not (TOP / f"crates/{it}/out/rlib").is_dir()]
    odd = [line for edit in edits for line in misplaced(edit)]
    odd += [f"{it} is not built here: rt ci builds all libraries" for it in lacking[:1]]
    if odd or not edits:
        print("\n".join(odd or [f"edits: none is called {' or '.join(names)}"]))
        return 1
    by_crate = {}
    for edit in edits:
        by_crate.setdefault(edit.parent.parent, []).append(edit)
    passed = 0
    with concurrent.futures.ThreadPoolExecutor(len(os.sched_getaffinity(0))) as pool:
        # those with the most first, so that none of them is left alone at the end
        most_first = sorted(by_crate.items(), key=lambda it: -len(it[1]))
        runs = [pool.submit(try_crate, crate, found, bugs, twins) for crate, found in most_first]
        for run in concurrent.futures.as_completed(runs):
            lines, good = run.result()
            print("\n".join(lines), flush=True)
            passed += good
    print(f"edits: {passed} passed, {len(edits) - passed} failed")
    return 1 if passed < len(edits) else 0


if __name__ == "__main__":
    sys.exit(main(sys.argv[1:]))
