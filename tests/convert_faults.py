"""Runs `convert` where the system fails it: ends that are full, closed, slow or not blocking, reads that fail, and calls that move less
than they were asked to (tests/c/faulty_io.c). Nothing may be lost without a word on standard error, and what arrives must be what
the reference says. Takes the program's path, or none for the one that was just built. Prints each fault that goes wrong and exits
1, or prints nothing."""

import fcntl
import os
import signal
import subprocess
import sys
import tempfile
import threading
import time
from pathlib import Path

ROOT = Path(__file__).resolve().parent.parent
sys.path.insert(0, str(ROOT / "reference"))
import convert_lines  # noqa: E402

CONVERT = ROOT / "crates/convert/out/convert"

# how long anything may take, in seconds
PATIENCE = 20

LINE = b"per;DATE;2006-06-13\n"
LINES = b"".join((b"per;DATE;2006-06-13\n", b"unper;DATE;0558\n", b"der;DATE-TIME;2006-06-13T15:27:46\n", b"?\n", b"\n")) * 40

# more replies than two pipes and two buffers hold
MANY = LINE * 300000

# what a call of faulty_io.c may do without anything being lost
HARMLESS = ("intr,ok", "again,ok", "short", "few", "intr,again,ok", "short,intr,few,again,again,ok", "ok,short,intr", "again,again,again,few")


def expect(condition, what):
    """Raises what is wrong, unless the condition holds."""
    if not condition:
        raise AssertionError(what)


def expect_run(run, octets, said):
    """A run has replied to these octets, and said this on standard error; its status is 1 where it said something, or else 0."""
    expect(run.stderr == said, f"says {run.stderr[:200]!r} and not {said!r}")
    expect(run.returncode == (1 if said else 0), f"ends with {run.returncode} where it says {said!r}")
    expect(run.stdout == convert_lines.replies(octets), f"{len(run.stdout)} octets of replies to {len(octets)} octets are other ones")


def run(program, octets, **changes):
    """A run on octets, with the ends that are given in place of pipes."""
    ends = {"stdout": subprocess.PIPE, "stderr": subprocess.PIPE, "timeout": PATIENCE, **changes}
    if "stdin" not in ends:
        ends["input"] = octets
    return subprocess.run([program], **ends)


def start(program, **changes):
    """The program, with pipes for the ends that are not given."""
    ends = {"stdin": subprocess.PIPE, "stdout": subprocess.PIPE, "stderr": subprocess.PIPE, **changes}
    return subprocess.Popen([program], **ends)


def not_blocking(descriptor):
    """Has calls on a descriptor's file fail where they would wait."""
    fcntl.fcntl(descriptor, fcntl.F_SETFL, fcntl.fcntl(descriptor, fcntl.F_GETFL) | os.O_NONBLOCK)


def within(seconds, action):
    """What an action returns in so many seconds."""
    found = []
    thread = threading.Thread(target=lambda: found.append(action()), daemon=True)
    thread.start()
    thread.join(seconds)
    expect(found, f"nothing after {seconds} seconds")
    return found[0]


def processor_time(process):
    """How many seconds of the processor a process has used."""
    fields = Path(f"/proc/{process.pid}/stat").read_text("ascii").rpartition(")")[2].split()
    return (int(fields[11]) + int(fields[12])) / os.sysconf("SC_CLK_TCK")


def expect_idle(process):
    """A process that waits leaves the processor to others."""
    time.sleep(0.1)
    before = processor_time(process)
    time.sleep(0.5)
    expect(processor_time(process) - before < 0.2, "keeps the processor busy while it waits")


def full_device(program):
    for octets in (LINE, LINE[:-1], MANY):
        with open("/dev/full", "wb") as full:
            done = run(program, octets, stdout=full)
        said = b"convert: standard output: No space left on device\n"
        expect(done.stderr == said, f"says {done.stderr[:200]!r} and not {said!r}")


def full_device_at_once(program):
    with open("/dev/full", "wb") as full:
        process = start(program, stdout=full)
    process.stdin.write(LINE)
    process.stdin.flush()
    try:
        within(PATIENCE, process.wait)
    finally:
        process.kill()
    expect(b"No space left on device" in process.stderr.read(), "says nothing")


def closed_pipe(program):
    """A pipe that nobody reads is a failed write, whether or not the program begins with SIGPIPE ignored."""
    reader, writer = os.pipe()
    os.close(reader)
    for restored in (True, False):
        done = run(program, LINE, stdout=writer, restore_signals=restored)
        expect(done.returncode == 1, f"ends with {done.returncode} where nobody reads")
        expect(done.stderr == b"convert: standard output: Broken pipe\n", f"says {done.stderr!r} where nobody reads")
    os.close(writer)


def closed_pipe_at_once(program):
    """A reader that leaves is noticed at the next reply, though the input goes on."""
    process = start(program, restore_signals=False)
    try:
        process.stdin.write(LINE)
        process.stdin.flush()
        expect(within(PATIENCE, process.stdout.readline) == b"0 0558\n", "another reply")
        process.stdout.close()
        process.stdin.write(LINE)
        process.stdin.flush()
        within(PATIENCE, process.wait)
        expect(process.stderr.read() == b"convert: standard output: Broken pipe\n", "says nothing")
    finally:
        process.kill()


def output_that_does_not_block(program):
    """A reader that is slow and a pipe that does not wait: everything arrives."""
    reader, writer = os.pipe()
    not_blocking(writer)
    process = start(program, stdout=writer)
    os.close(writer)
    feeder = threading.Thread(target=lambda: process.communicate(MANY), daemon=True)
    feeder.start()
    expect_idle(process)
    with os.fdopen(reader, "rb") as replies:
        found = within(PATIENCE, replies.read)
    expect(found == convert_lines.replies(LINE) * (len(MANY) // len(LINE)), f"{len(found)} octets arrive")


def input_that_does_not_block(program):
    """Lines that come late through a pipe that does not wait: each is replied to."""
    reader, writer = os.pipe()
    not_blocking(reader)
    process = start(program, stdin=reader)
    os.close(reader)
    expect_idle(process)
    for piece in (LINES[:1000], LINES[1000:]):
        os.write(writer, piece)
        time.sleep(0.1)
    os.close(writer)
    out, said = process.communicate(timeout=PATIENCE)
    expect(said == b"" and out == convert_lines.replies(LINES), f"{len(out)} octets of replies, says {said!r}")


def directory(program):
    folder = os.open("/", os.O_RDONLY)
    done = run(program, b"", stdin=folder)
    os.close(folder)
    expect_run(done, b"", b"convert: standard input: Is a directory\n")


def closed_ends(program):
    for number, name in ((0, b"input"), (1, b"output")):
        command = ["sh", "-c", f'exec "$0" {number}{"<>"[number]}&-', program]
        done = subprocess.run(command, input=LINE, capture_output=True, timeout=PATIENCE)
        said = b"convert: standard " + name + b": Bad file descriptor\n"
        expect(done.stderr == said, f"says {done.stderr!r} and not {said!r}")


def one_octet_at_a_time(program):
    """Lines that come octet by octet: the reply is there before the next line begins."""
    process = start(program)
    try:
        for line in LINES.splitlines(True)[:20]:
            for k in range(len(line)):
                os.write(process.stdin.fileno(), line[k:k + 1])
                time.sleep(0.0005)
            found = within(PATIENCE, process.stdout.readline)
            expect(found == convert_lines.replies(line), f"{line!r} has the reply {found!r}")
    finally:
        process.kill()


def coprocess(program):
    """Each reply comes before the next line is sent, also after half a line and after a line that is too long."""
    process = start(program)
    try:
        for line in (*LINES.splitlines(True)[:50], b"x" * 2000 + b"\n", LINE):
            process.stdin.write(line[:5])
            process.stdin.flush()
            process.stdin.write(line[5:])
            process.stdin.flush()
            found = within(PATIENCE, process.stdout.readline)
            expect(found == convert_lines.replies(line), f"{line[:40]!r} has the reply {found!r}")
    finally:
        process.kill()


def faulty(program, library, octets, **lists):
    """A run whose calls fail by turns as the lists say."""
    return run(program, octets, env={**os.environ, "LD_PRELOAD": library, **lists})


def harmless_calls(program, library):
    """Calls that are interrupted, have to wait or move little: nothing is lost."""
    for words in HARMLESS:
        for lists in ({"FAULTY_READ": words}, {"FAULTY_WRITE": words}, {"FAULTY_READ": words, "FAULTY_WRITE": words}):
            expect_run(faulty(program, library, LINES, **lists), LINES, b"")


def failing_reads(program, library):
    """A read that fails: the lines before it have their replies, the line that it cuts has none."""
    octets = LINES[:4000]
    for whole in range(0, 60):
        done = faulty(program, library, octets, FAULTY_READ="few," * whole + "eio*")
        read = octets[:7 * whole]
        expect_run(done, read[:read.rfind(b"\n") + 1], b"convert: standard input: Input/output error\n")


def failing_writes(program, library):
    """A write that fails: what arrives is the beginning of the replies, and the failure is said once."""
    replies = convert_lines.replies(LINES)
    for whole in range(0, 20):
        for word, why in (("nospace*", b"No space left on device"), ("eio*", b"Input/output error"), ("zero*", b"nothing was taken")):
            done = faulty(program, library, LINES, FAULTY_WRITE="few," * whole + word)
            expect(done.stderr == b"convert: standard output: " + why + b"\n", f"says {done.stderr!r}")
            expect(done.stdout == replies[:7 * whole], f"{len(done.stdout)} octets arrive, and not {7 * whole}")


def failure_of_the_last_write(program, library):
    """The last reply, to a line without its newline, and no more input: its failure is said too."""
    done = faulty(program, library, LINE[:-1], FAULTY_WRITE="nospace*")
    expect(done.stderr == b"convert: standard output: No space left on device\n", f"says {done.stderr!r}")


ENDS = (
    full_device, full_device_at_once, closed_pipe, closed_pipe_at_once, output_that_does_not_block, input_that_does_not_block, directory,
    closed_ends, one_octet_at_a_time, coprocess,
)
CALLS = (harmless_calls, failing_reads, failing_writes, failure_of_the_last_write)


def fault_of(test, *given):
    """What a test finds, or nothing."""
    try:
        test(*given)
    except (AssertionError, OSError, subprocess.TimeoutExpired) as fault:
        return f"convert: {test.__name__}: {fault}"
    return None


def main():
    program = sys.argv[1] if len(sys.argv) > 1 else str(CONVERT)
    signal.signal(signal.SIGPIPE, signal.SIG_IGN)
    with tempfile.TemporaryDirectory() as folder:
        library = f"{folder}/faulty.so"
        subprocess.run(["cc", "-shared", "-fPIC", "-o", library, str(ROOT / "tests/c/faulty_io.c"), "-ldl"], check=True)
        faults = [fault_of(test, program) for test in ENDS] + [fault_of(test, program, library) for test in CALLS]
    sys.exit("\n".join(filter(None, faults)) or None)


if __name__ == "__main__":
    main()
