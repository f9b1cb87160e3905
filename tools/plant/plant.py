#!/usr/bin/env python3
"""Plants small bugs in the crates, one at a time, and says whether the check refuses each.

    tools/plant/plant.py [--jobs N] [--table FILE] [CRATE..]

A bug is a file tools/plant/bugs/CRATE/LABEL.edit of four lines:

    what: what the bug is, in a few words
    file: src/x.rt
    old: TEXT        (stands once in that file)
    new: TEXT

The edits under crates/CRATE/must-fail/ are bugs too: rt ci tries those, and here they are tried with --must-fail.
Each bug is put into a copy of the crates, and `rt check` is run there in the bug's crate; what checks on this machine kept of what has not
changed is taken over, so a bug takes some seconds once its crate was checked. The status is 0 if every bug is refused by the prover.
"""
import argparse
import concurrent.futures
import pathlib
import queue
import re
import shutil
import subprocess
import sys
import tempfile
import time

ROOT = pathlib.Path(__file__).resolve().parents[2]


class Bug:
    def __init__(self, crate, path):
        self.crate, self.label = crate, path.stem
        fields = {}
        for line in path.read_text().splitlines():
            for key in ("what", "file", "old", "new"):
                if line.startswith(key + ": ") or line == key + ":":
                    fields[key] = line[len(key) + 2 :]
        self.what = fields.get("what", self.label.replace("_", " "))
        self.file, self.old, self.new = fields["file"], fields["old"], fields["new"]


def bugs_of(crate, must_fail):
    folders = [ROOT / "tools/plant/bugs" / crate]
    if must_fail:
        folders.append(ROOT / "crates" / crate / "must-fail")
    return [Bug(crate, path) for folder in folders if folder.is_dir() for path in sorted(folder.glob("*.edit"))]


def refused_by(log):
    """The function that is refused first, and the goals that are not proved."""
    for line in log.splitlines():
        found = re.match(r"(?:fn|impl|struct|enum|law) (\S+): (?:no proof|not proved)(.*)", line)
        if not found or "it calls" in found[2]:
            continue
        # goals that no file answers stand in the line itself, and those whose answer is wrong in the errors of the function's file
        goals = re.findall(r"`([a-z][\w·-]*)`", found[2].split("did not prove", 1)[-1]) if "did not prove" in found[2] else []
        file = "proofs/" + "/".join(found[1].split("::")[1:])
        goals += re.findall(re.escape(file) + r"/\w+\.antt:\d+:\d+: error: `([a-z][\w·-]*)`", log)
        return found[1], ", ".join(dict.fromkeys(goals[:3])) or "a lemma"
    return "", ""


def plant(bug, copy):
    """Puts the bug into the copy, checks, and takes it out again."""
    path = copy / "crates" / bug.crate / bug.file
    text = path.read_text()
    if text.count(bug.old) != 1:
        return "bad edit: the old text does not stand once", "", "", 0
    path.write_text(text.replace(bug.old, bug.new))
    began = time.monotonic()
    done = subprocess.run(["rt", "check"], cwd=copy / "crates" / bug.crate, stdin=subprocess.DEVNULL, stdout=subprocess.PIPE, stderr=subprocess.STDOUT, text=True, errors="replace")
    took = time.monotonic() - began
    path.write_text(text)
    if "logic=not-proved" in done.stdout:
        return ("refused", *refused_by(done.stdout), took)
    if done.returncode == 0:
        return "SURVIVES", "", "", took
    first = next((line for line in done.stdout.splitlines() if "error" in line), "?")
    return f"bad edit: {first[:160]}", "", "", took


def main():
    args = argparse.ArgumentParser(description=__doc__, formatter_class=argparse.RawDescriptionHelpFormatter)
    args.add_argument("--jobs", type=int, default=2)
    args.add_argument("--table", type=pathlib.Path, help="write the table of the bugs to this file, as Markdown rows")
    args.add_argument("--must-fail", action="store_true", help="try the must-fail edits too")
    args.add_argument("crates", nargs="*")
    args = args.parse_args()
    every = [line.split(":")[0].split()[0] for line in (ROOT / "crates.txt").read_text().splitlines() if line and not line.startswith("#")]
    bugs = [bug for crate in args.crates or every for bug in bugs_of(crate, args.must_fail)]
    with tempfile.TemporaryDirectory(prefix="plant") as work:
        copies = queue.Queue()
        for job in range(args.jobs):
            copy = pathlib.Path(work) / str(job)
            shutil.copytree(ROOT / "crates", copy / "crates", ignore=shutil.ignore_patterns("out", "must-fail"))
            shutil.copy(ROOT / "crates.txt", copy)
            copies.put(copy)

        def run(bug):
            copy = copies.get()
            try:
                return bug, plant(bug, copy)
            finally:
                copies.put(copy)

        rows, wrong = [], 0
        with concurrent.futures.ThreadPoolExecutor(args.jobs) as pool:
            for bug, (verdict, function, goals, took) in pool.map(run, bugs):
                wrong += verdict != "refused"
                print(f"{bug.crate}/{bug.label}: {verdict}, {function} {goals} ({took:.0f} s)", flush=True)
                rows.append(f"| `{bug.crate}` | {bug.what} | `{bug.file}` | {verdict} | `{function}` | {goals} |")
        if args.table:
            args.table.write_text("\n".join(rows) + "\n")
    print(f"{len(bugs)} bugs planted, {len(bugs) - wrong} refused, {wrong} not")
    return 1 if wrong else 0


if __name__ == "__main__":
    sys.exit(main())
