"""Runs each example of the README in its order: a block of sh with a block of text behind it, which is what the command must print;
has each block of Rattle proved as a crate over the library, which was just proved, in a copy of the project and beside the
others, since rt keeps files for each crate that it looks at; and sees that each block of C is a file of examples/. Prints the
first example that differs or is not proved and exits 1, or prints nothing."""

import re
import subprocess
import sys
import tempfile
from concurrent.futures import ThreadPoolExecutor
from functools import partial
from pathlib import Path

sys.dont_write_bytecode = True
from must_fail_logs import Copy  # noqa: E402

ROOT = Path(__file__).resolve().parent.parent
EXAMPLE = re.compile(r"^```sh\n(.*?)^```\n+```text\n(.*?)^```", re.M | re.S)
CODE = re.compile(r"^```rust\n(.*?)^```", re.M | re.S)
ABOVE_CODEC = re.compile(r"^lines: (.*)$", re.M)
BLOCK_OF_C = re.compile(r"^```c\n(.*?)^```", re.M | re.S)


def copied(codes, folder):
    """Makes a copy of the project, with a crate more for each block of Rattle."""
    Copy(folder)
    crates = (ROOT / "crates.txt").read_text("utf-8")
    below = ABOVE_CODEC.search(crates).group(1)
    for k, code in enumerate(codes):
        crates += f"example{k}: {below}\n"
        (folder / f"crates/example{k}/src").mkdir(parents=True)
        (folder / f"crates/example{k}/src/lib.rt").write_text(code, "utf-8")
    (folder / "crates.txt").write_text(crates, "utf-8")


def fault_of_code(k, code, folder):
    """Why a crate in a copy of the project is not proved, or nothing."""
    run = subprocess.run(["rt", "check"], cwd=folder / f"crates/example{k}", capture_output=True, text=True)
    if run.returncode or "\nlogic=proved " not in run.stdout:
        return f"README.md: not proved:\n{code}{run.stdout}{run.stderr}"
    return None


def fault_of_example(folder, command, expected):
    """What a command prints otherwise in a folder, or nothing."""
    run = subprocess.run(["bash", "-c", command], cwd=folder, capture_output=True, text=True)
    if run.stdout != expected or run.returncode:
        return f"README.md: {command}prints\n{run.stdout}{run.stderr}and not\n{expected}"
    return None


def fault_of_file(code):
    """That a block of C is no file of examples/, or nothing."""
    if code not in [file.read_text("utf-8") for file in ROOT.glob("examples/*.c")]:
        return f"README.md: no file of examples/:\n{code}"
    return None


def first_fault(tests):
    """The first fault that one of the tests finds, one after the other."""
    return next(filter(None, (test() for test in tests)), None)


def main():
    text = (ROOT / "README.md").read_text("utf-8")
    examples, codes, files = (block.findall(text) for block in (EXAMPLE, CODE, BLOCK_OF_C))
    if not examples or not codes or not files:
        sys.exit("README.md: no example in sh, in Rattle or in C")
    with tempfile.TemporaryDirectory() as name, ThreadPoolExecutor(2) as pool:
        folder = Path(name)
        copied(codes, folder)
        apart = [partial(fault_of_code, k, code, folder) for k, code in enumerate(codes)]
        here = [partial(fault_of_file, code) for code in files] + [partial(fault_of_example, ROOT, *example) for example in examples]
        faults = list(filter(None, pool.map(first_fault, (here, apart))))
        if faults:
            sys.exit(faults[0])


if __name__ == "__main__":
    main()
