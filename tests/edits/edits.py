"""Whether each wrong program of a must-fail edit is refused by itself, for a fact that does not hold. tests/edits/run.sh runs this.

An edit names its wrong programs,
    # CRATE::FUNCTION GOAL: what is wrong: an input
    # CRATE.proofs.FILE LEMMA: what is wrong: an input
the second where a definition is edited. rt holds an edit to be refused where anything of it is. Here the edited crate is checked once more, and what the check
says has to refuse each function that is named at its goal, or the lemma. It does not count where a function only rests on another that is not proved, nor where
the proof of that goal names a thing that the edited program does not have.

A check is over the libraries in crates/*/out/rlib: those that rt ci has just left there, or else those that rt check makes where they are not current. What it said is in target/must-fail/CRATE/LABEL.log, and is kept on this
machine, by the sum of all that was read, so that the same is not checked twice.
"""

import hashlib
import os
import re
import shutil
import subprocess
import sys
import tempfile
import time
from concurrent.futures import ThreadPoolExecutor

KIT = os.environ.get("RATTLE_HOME") or os.path.dirname(subprocess.run(["rt", "doc"], stdout=subprocess.PIPE, check=True, text=True).stdout.strip())
NAMED = re.compile(r"^# ([a-z_0-9]+(?:::|\.proofs\.)[A-Za-z_0-9:.+]+) ([^ :]+): ")
# What a proof says that names a thing which the edited program does not have.
LACKS = re.compile(r"has no field `|has no `|that can be named from here|is not in scope[:;]|unknown name|no occurrence")
PARTS = ("src", "specs", "proofs")
KEPT_DAYS = 30


def text_of(path):
    with open(path, encoding="utf-8") as it:
        return it.read()


def listed():
    """The crates of crates.txt, with what each depends on."""
    found = {}
    for line in text_of("crates.txt").split("\n"):
        head, colon, deps = line.partition("#")[0].partition(":")
        if colon:
            found[head.split()[0]] = deps.split()
    return found


CRATES = listed()


def below(crate):
    """The crates of this project that a crate rests on, each after those that it depends on."""
    found = []
    for dep in CRATES[crate]:
        if dep in CRATES:
            found += [it for it in [*below(dep), dep] if it not in found]
    return found


def words_of(crate):
    """The words that have rattle check a crate over the libraries of those below it."""
    here = os.getcwd()
    root = "src/main.rt" if os.path.isfile(f"crates/{crate}/src/main.rt") else "src/lib.rt"
    words = ["--crate-name", crate, root, "--extern", f"std={KIT}/rlibs/std.rlib", "-L", f"dependency={KIT}/rlibs"]
    for dep in below(crate):
        words += ["-L", f"dependency={here}/crates/{dep}/out/rlib"]
    for dep in CRATES[crate]:
        words += ["--extern", f"{dep}={here}/crates/{dep}/out/rlib/{dep}.rlib" if dep in CRATES else f"{dep}={KIT}/rlibs/{dep}.rlib"]
    words += ["--antt-project", f"{KIT}/rattle/logic/antt-project.json", "--logic-built", f"{KIT}/logic_built", "--jobs", "1"]
    return words


def files_of(crate):
    found = []
    for part in PARTS:
        for at, _, names in os.walk(f"crates/{crate}/{part}"):
            found += [f"{at}/{name}" for name in names]
    return sorted(found)


def sum_of(crate, edit, words):
    """The sum of all that a check of the edited crate reads."""
    sum = hashlib.sha256(repr((1, VERSION, [it for it in words if not it.startswith("dependency=") and "/out/rlib/" not in it], text_of(edit))).encode())
    for it in [*below(crate), crate]:
        sum.update(repr((it, CRATES[it])).encode())
        for file in files_of(it):
            with open(file, "rb") as text:
                sum.update(repr((file, text.read())).encode())
    return sum.hexdigest()


def apply(edit, folder):
    """Writes the edit into a copy of its crate. A later pair applies to what the earlier ones made."""
    path = old = None
    for line in text_of(edit).split("\n"):
        if line.startswith("file: "):
            path = f"{folder}/{line[6:].strip()}"
        elif line.startswith("old: "):
            old = line[5:]
        elif line.startswith("new:"):
            text = text_of(path)
            if text.count(old) != 1:
                return f"an old text stands {text.count(old)} times in {os.path.relpath(path, folder)}: {old}"
            with open(path, "w", encoding="utf-8") as it:
                it.write(text.replace(old, line[4:].removeprefix(" ")))
    return None


def checked(crate, edit, names, log):
    """Checks the edited crate into the log, or takes what an earlier run kept, and returns why it could not, if so."""
    words = words_of(crate)
    if not any(".proofs." in it for it in names):
        # the functions that are named, and what they call
        for it in dict.fromkeys(names):
            words += ["--only", it.partition("::")[2]]
    kept = KEPT and f"{KEPT}/{sum_of(crate, edit, words)}"
    os.makedirs(os.path.dirname(log), exist_ok=True)
    if kept and os.path.isfile(kept):
        os.utime(kept)
        shutil.copyfile(kept, log)
        return None
    if os.environ.get("BARZHILUP_OVER") != "ci":
        # (it proves and builds what is not current below the crate, and looks at no function of it)
        ran = subprocess.run(["rt", "check", "--only", ""], cwd=f"crates/{crate}", stdin=subprocess.DEVNULL, stdout=subprocess.PIPE, stderr=subprocess.STDOUT, text=True, errors="replace")
        if ran.returncode:
            return "\n".join(["the libraries below its crate are not proved", *ran.stdout.split("\n")[-6:]])
    with tempfile.TemporaryDirectory(prefix="barzhilup-edit-") as room:
        for part in PARTS:
            if os.path.isdir(f"crates/{crate}/{part}"):
                shutil.copytree(f"crates/{crate}/{part}", f"{room}/{part}")
        why = apply(edit, room)
        if why:
            return why
        with open(log, "w", encoding="utf-8") as out:
            status = subprocess.run([f"{KIT}/bin/rattle", "check", *words], cwd=room, stdin=subprocess.DEVNULL, stdout=out, stderr=subprocess.STDOUT).returncode
    if status not in (0, 1):
        return f"its check ended with status {status}: {log}"
    if kept:
        shutil.copyfile(log, f"{kept}.{os.getpid()}")
        os.replace(f"{kept}.{os.getpid()}", kept)
    return None


def errors_of(lines, place):
    """What a log says of a proof file, as pairs of a goal or lemma and the whole error."""
    found, ours = [], False
    for line in lines:
        if line.startswith("  "):
            if ours:
                found[-1][1] += line
            continue
        at = re.match(rf"(?:\./)?proofs/{re.escape(place)}\.antt:\d+:\d+: error: `([^`]*)`: ", line)
        ours = bool(at)
        if at:
            found.append([at[1], line])
    return found


def is_false(errors, goal):
    """Whether errors refuse a goal for a fact."""
    said = [text for name, text in errors if name == goal and "was not admitted" not in text]
    return bool(said) and not any(LACKS.search(it) for it in said)


def is_refused(lines, name, goal):
    """Whether a log refuses a function at a goal, or a lemma, for a fact."""
    if "::" not in name:
        return is_false(errors_of(lines, name.partition(".proofs.")[2].replace(".", "/")), goal)
    place, notes = name.partition("::")[2].replace("::", "/"), []
    for line in lines:
        note = re.match(r"note: (?:\./)?src/\S+:\d+:\d+: it is not proved that .*?\(`([^`]*)`\)", line)
        if note:
            notes.append(note[1])
        elif line.startswith("fn "):
            if line.startswith(f"fn {name}: no proof: "):
                tried = re.search(r"`search` did not prove ((?:`[^`]*`(?:, | and )?)+)", line)
                return bool(tried) and goal in re.findall(r"`([^`]*)`", tried[1])
            if line.startswith(f"fn {name}: not proved"):
                break
            notes = []
    else:
        return False
    return goal in notes or any(is_false(errors_of(lines, f"{place}/{file}"), goal) for file in ("Answers", "Invariants", "Proof"))


def tried(edit):
    """Returns how many wrong programs the edit has, and what is not as it should be."""
    crate = edit.split("/")[1]
    log = f"target/must-fail/{crate}/{os.path.basename(edit)[:-5]}.log"
    named = [it.groups() for it in map(NAMED.match, text_of(edit).split("\n")) if it]
    wrong = []
    if not named:
        return 0, [f"{edit} names no wrong program"]
    if len(set(named)) < len(named):
        wrong.append(f"{edit} names one goal twice")
    why = checked(crate, edit, [name for name, _ in named], log)
    if why:
        return len(named), [*wrong, f"{edit}: {why}"]
    lines = text_of(log).split("\n")
    return len(named), [*wrong, *[f"{edit}: {name} is not refused at {goal} by itself" for name, goal in named if not is_refused(lines, name, goal)]]


def lanes():
    """How many checks run at a time: one a processor, with 3 GB for each."""
    free = re.search(r"MemAvailable:\s+(\d+)", text_of("/proc/meminfo"))
    return max(1, min(len(os.sched_getaffinity(0)), int(free[1]) // 3_000_000 if free else 1))


def main(crates):
    folders = [f"crates/{it}/must-fail" for it in crates or sorted(os.listdir("crates"))]
    edits = [f"{it}/{name}" for it in folders if os.path.isdir(it) for name in sorted(os.listdir(it)) if name.endswith(".edit")]
    programs, wrong = 0, []
    with ThreadPoolExecutor(lanes()) as pool:
        for count, found in pool.map(tried, edits):
            programs += count
            wrong += found
            for it in found:
                print(f"edits: {it}", flush=True)
    print(f"edits: {len(edits)} edits, {programs} wrong programs, {len(wrong)} not as they should be")
    return 1 if wrong or not edits else 0


VERSION = subprocess.run(["rt", "version"], stdout=subprocess.PIPE, check=True, text=True).stdout
KEPT = None
cache = os.environ.get("XDG_CACHE_HOME") or (os.path.expanduser("~") != "~" and os.path.expanduser("~/.cache"))
if cache:
    try:
        KEPT = f"{cache}/barzhilup/edits"
        os.makedirs(KEPT, exist_ok=True)
        for entry in os.scandir(KEPT):
            if entry.stat().st_mtime < time.time() - KEPT_DAYS * 86400:
                os.remove(entry)
    except OSError:
        KEPT = None
if __name__ == "__main__":
    sys.exit(main(sys.argv[1:]))
