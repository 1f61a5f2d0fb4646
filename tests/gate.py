"""The verdict: runs `rt ci`, with no names, at the top of the project, shows what it prints as it comes, and ends with its status. A
pass of `rt ci` says that no edit of must-fail/ was proved, and not that each was tried: one that cannot be applied, compiled or read is
bad, and fails nothing there. So this fails too where `rt: ok` tells of bad edits, or of fewer refused ones than there are."""

import re
import subprocess
import sys
from pathlib import Path

ROOT = Path(__file__).resolve().parent.parent
LAST = re.compile(r"(\d+) passed, (\d+) failed")
OK = re.compile(r"^rt: ok;.*$", re.M)
REFUSED = re.compile(r"; must-fail edits: (\d+) refused")
BAD = re.compile(r", (\d+) bad\b")


def faults(said, edits):
    """What is wrong with a pass of `rt ci`, given what it printed and how many edits there are."""
    last, ok = LAST.fullmatch(said.rstrip("\n").split("\n")[-1]), OK.findall(said)
    if not last or int(last[1]) == 0 or int(last[2]):
        yield "its last line is no pass"
    if len(ok) != 1:
        yield "it has no line `rt: ok`, or several"
        return
    bad, refused = BAD.search(ok[0]), REFUSED.search(ok[0])
    if bad and int(bad[1]):
        yield f"{bad[1]} edits are bad, and show nothing"
    if (int(refused[1]) if refused else 0) != edits:
        yield f"{refused[1] if refused else 0} edits were refused, and there are {edits}"


def self_test():
    """A pass is one, and each fault is found."""
    ok = "rt: ok; handles allowed: none; must-fail edits: 86 refused; every proof and must-fail edit was done in this run"
    limit = ok.replace("86 refused", "86 refused, 2 of them only by a limit")
    bad = ok.replace("86 refused", "86 refused, 3 bad")
    last = "\n115 passed, 0 failed\n"
    cases = (
        (ok + last, 86, 0), (limit + last, 86, 0), (ok.replace("must-fail edits: 86 refused; ", "") + last, 0, 0),
        (ok.replace("86 refused", "86 refused, 0 bad") + last, 86, 0), (bad + last, 86, 1), (bad + last, 89, 2), (ok + last, 87, 1),
        (ok.replace("must-fail edits: 86 refused; ", "") + last, 86, 1), (limit.replace("limit", "limit, 1 bad") + last, 86, 1),
        (ok + "\n115 passed, 1 failed\n", 86, 1), (ok + "\n0 passed, 0 failed\n", 86, 1), (ok + "\n", 86, 1), (last, 86, 1), ("", 86, 2),
        (ok + "\n115 passed, 0 failed (octets and the crates below alone: not the gate)\n", 86, 1),
    )
    for said, edits, count in cases:
        if len(list(faults(said, edits))) != count:
            sys.exit(f"gate.py does not find what it should in {said!r}: {list(faults(said, edits))}")


def main():
    self_test()
    run, said = subprocess.Popen(["rt", "ci"], cwd=ROOT, stdout=subprocess.PIPE, text=True, errors="replace"), []
    for line in run.stdout:
        said.append(line)
        print(line, end="", flush=True)
    if run.wait():
        sys.exit(run.returncode)
    found = list(faults("".join(said), len(list(ROOT.glob("crates/*/must-fail/*.edit")))))
    if found:
        sys.exit(f"rt ci passed, and {'; '.join(found)}")


if __name__ == "__main__":
    main()
