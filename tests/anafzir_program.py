"""Compares what the program `anafzir` prints, says and returns with the reference, on many inputs, as arguments and as lines;
calls it wrongly; makes its reads and writes fail, wait and move little; and runs the examples of both manual pages.

`anafzir_program.py [PROGRAM [LIBRARY]]`: PROGRAM is build/anafzir where none is given. LIBRARY is tests/c/faulty_io.c as a shared
library, which is built with cc where none is given. Prints the first difference and exits 1, or prints nothing."""

import fcntl
import functools
import itertools
import os
import random
import re
import resource
import select
import shutil
import signal
import subprocess
import sys
import tempfile
import time
from collections import defaultdict, namedtuple
from pathlib import Path

ROOT = Path(__file__).resolve().parent.parent
sys.path.insert(0, str(ROOT / "reference"))
import coding_lines  # noqa: E402
import convert_lines  # noqa: E402
from lines import split_lines  # noqa: E402
from settings import NO_LIMITS, Limits  # noqa: E402
from value_lines import MENU  # noqa: E402

# the programs under the names that the manual pages use, the library, and files of the tests
FOLDER = Path(tempfile.mkdtemp())
PROGRAM = FOLDER / "anafzir"
CONVERT = FOLDER / "anafzir-convert"
FAULTY = FOLDER / "faulty.so"

# seconds after which a run hangs
LONGEST_RUN = 60

SENTENCES = {
    1: "The type cannot be read, or a limit has no place in it.",
    2: "The type's lists do not belong together.",
    3: "The input does not look like a value of the type.",
    4: "There is no such date, time or difference.",
    5: "The value exists, and the type does not have it.",
    6: "The octets are not what the encoder writes for the value.",
}

Answer = namedtuple("Answer", "status out err")
Question = namedtuple("Question", "work type_text limits")

DATES = Question(b"per", b"DATE", NO_LIMITS)
HEX_DATES = Question(b"unper", b"DATE", NO_LIMITS)


# Asking.


def ask(words, octets=b"", variables=None, **more):
    """What a run of the program with these words, this input and these variables gives."""
    streams = {"stdout": subprocess.PIPE, "stderr": subprocess.PIPE, **more}
    if "stdin" not in streams:
        streams["input"] = octets
    try:
        run = subprocess.run([PROGRAM, *words], env={**os.environ, **(variables or {})}, timeout=LONGEST_RUN, **streams)
    except subprocess.TimeoutExpired:
        sys.exit(f"anafzir: {shown(words)} with {variables} does not end")
    return Answer(run.returncode, run.stdout, run.stderr)


def faulty(reads="", writes="", closes=""):
    """The variables that make calls of the program fail."""
    return {"LD_PRELOAD": str(FAULTY), "FAULTY_READ": reads, "FAULTY_WRITE": writes, "FAULTY_CLOSE": closes}


def shown(value):
    """A value for people to read; the middle of a long one is left out."""
    text = repr(value)
    return text if len(text) < 1500 else f"{text[:700]} .. {text[-700:]}"


def first_difference(got, wanted):
    """The first part of two answers that differs, from a little before the difference on."""
    name, one, other = next(each for each in zip(Answer._fields, got, wanted) if each[1] != each[2])
    if not isinstance(one, bytes) or not isinstance(other, bytes):
        return (name, one), (name, other)
    start = max(0, len(os.path.commonprefix([one, other])) - 100)
    return (name, start, one[start:]), (name, start, other[start:])


def same(what, got, wanted):
    """Ends the test where something is not as it should be."""
    if got == wanted:
        return
    if isinstance(got, Answer):
        got, wanted = first_difference(got, wanted)
    sys.exit(f"anafzir: {shown(what)} gives\n{shown(got)}\nand not\n{shown(wanted)}")


# What is expected.


@functools.lru_cache(maxsize=1000)
def judge(question, given):
    """The number, the result as it is printed and the bit count; None for a number where the input is not hex."""
    work = convert_lines.WORKS[question.work]
    octets = work.read(given)
    if octets is None:
        return None, b"", 0
    number, result, bits = work.convert(question.type_text, question.limits, octets, convert_lines.ROOM)
    return number, work.write(result), bits


def reason(number, explain):
    """What a message has behind `refused, `."""
    if number is None:
        return "not pairs of hex digits"
    return f"{number}: {SENTENCES[number]}" if explain else f"{number}"


def replies(question, inputs, source, bits=False, explain=False):
    """The line of output and the message of each input, each with its newline; the message is empty where there is none."""
    for n, given in enumerate(inputs, 1):
        number, result, count = judge(question, given)
        if number == 0:
            yield result + (b" %d\n" % count if bits else b"\n"), b""
        else:
            yield b"\n", f"anafzir: {source} {n}: refused, {reason(number, explain)}\n".encode()


def expected(question, inputs, source, bits=False, explain=False):
    """The answer to all inputs."""
    lines = list(replies(question, inputs, source, bits, explain))
    err = b"".join(message for _, message in lines)
    return Answer(1 if err else 0, b"".join(line for line, _ in lines), err)


def expected_lines(question, octets, bits=False, explain=False):
    """The answer to the lines of these octets."""
    return expected(question, split_lines(octets), "line", bits, explain)


def failure(answer, stream, error):
    """An answer with a failed read or write behind it."""
    return Answer(2, answer.out, answer.err + f"anafzir: standard {stream}: {error}\n".encode())


def option_words(limits, bits=False, explain=False):
    """The options that say this."""
    words = [b"--from=%d" % limits.window[0], b"--to", b"%d" % limits.window[1]] if limits.window else []
    words += [b"--no-24"] if limits.no_hour_24 else []
    return words + ([b"--bits"] if bits else []) + ([b"--explain"] if explain else [])


def words_of(question, bits=False, explain=False, texts=()):
    """A command line; the options stand in front of the type or behind it."""
    options = option_words(question.limits, bits, explain)
    if len(question.type_text) % 2 or question.type_text.startswith(b"--"):
        return [question.work, *options, b"--", question.type_text, *texts]
    return [question.work, question.type_text, *options, b"--", *texts]


# Inputs of all kinds.


def questions_of_convert():
    """The lines of convert_lines.py that have three parts."""
    for line in convert_lines.all_lines():
        parts = line.split(b";", 2)
        if len(parts) == 3 and parts[0] in convert_lines.WORKS:
            yield Question(parts[0], parts[1], NO_LIMITS), parts[2]


def questions_of_codings():
    """The lines of coding_lines.py that have a work and limits, whatever their room is."""
    works = {b"e": b"per", b"t": b"der", b"d": b"unper", b"u": b"under"}
    for line in coding_lines.all_lines():
        start, type_text, given = (line + b";;").split(b";", 2)
        if len(start) == 3 and start[:1] in works and start[1:2] in MENU:
            yield Question(works[start[:1]], type_text, MENU[start[1:2]]), given[:-2]


def all_questions():
    """Each question with its inputs; a command line has no octet 0."""
    groups = defaultdict(dict)
    for question, given in itertools.chain(questions_of_convert(), questions_of_codings()):
        if b"\0" not in question.type_text:
            groups[question][given] = None
    return [(question, list(inputs)) for question, inputs in groups.items()]


def ask_in_lines(question, inputs, bits, explain):
    """Asks with lines, the last of them without a newline where it is not empty."""
    octets = b"\n".join(inputs) + (b"" if inputs[-1] else b"\n")
    words = words_of(question, bits, explain, [b"-"] if bits else [])
    same((words, octets), ask(words, octets), expected_lines(question, octets, bits, explain))


def ask_in_arguments(question, inputs, bits, explain):
    """Asks with as many inputs as a command line takes."""
    texts = [given for given in inputs if b"\0" not in given and len(given) < 3000]
    if not texts or b"-" in texts:
        return
    words = words_of(question, bits, explain, texts)
    same(words, ask(words), expected(question, texts, "argument", bits, explain))


def check_all_questions():
    """Each question with many inputs is asked in lines or in arguments, and some of those with few."""
    numbers = random.Random(3)
    groups = all_questions()
    many = [(question, inputs[::1 + len(inputs) // 150]) for question, inputs in groups if len(inputs) >= 15]
    few = [group for group in groups if len(group[1]) < 15]
    for question, inputs in many + few[::41]:
        way = numbers.choice((ask_in_lines, ask_in_arguments))
        way(question, inputs, numbers.random() < 0.5, numbers.random() < 0.5)


def some_lines():
    """Octets with lines of many kinds: good ones, refused ones, empty ones, and the last without a newline."""
    dates = [b"2006-06-13", b"2006-02-29", b"", b"2004-02-29", b"x", b"1581-12-31", b"2006-06-13\r", b"\0", b"9999-12-31", b"-"]
    return b"\n".join(dates * 3 + dates[:1])


def ask_in_pieces(question, octets, sizes):
    """Asks with lines that come in pieces of these sizes, and then the rest."""
    with open(FOLDER / "out", "w+b") as out, open(FOLDER / "err", "w+b") as err:
        program = subprocess.Popen([PROGRAM, *words_of(question)], stdin=subprocess.PIPE, stdout=out, stderr=err, bufsize=0)
        rest = octets
        for size in sizes:
            program.stdin.write(rest[:size])
            rest = rest[size:]
        program.stdin.write(rest)
        program.stdin.close()
        status = program.wait(LONGEST_RUN)
    got = Answer(status, (FOLDER / "out").read_bytes(), (FOLDER / "err").read_bytes())
    same((question, octets, sizes), got, expected_lines(question, octets))


def check_pieces():
    """Lines that are cut anywhere."""
    numbers = random.Random(12)
    octets = some_lines()
    for cut in range(0, len(octets) + 1, 7):
        ask_in_pieces(DATES, octets, [cut])
    long = b"".join(b"x" * numbers.choice((0, 1, 30000, 65536)) + b"\n" + octets + b"\n" for _ in range(12))
    for _ in range(8):
        ask_in_pieces(DATES, long, numbers.choices((1, 7, 1000, 4096, 65535, 65536, 65537), k=30))


def check_every_octet():
    """Every octet but the newline, in every place of hex digits and of a text, and behind them."""
    octets = [bytes([number]) for number in range(256) if number != 0x0A]
    elements = Question(b"under", b"DATE", NO_LIMITS)
    for question, good in ((HEX_DATES, b"0558"), (elements, b"1F1F083230303630363133"), (DATES, b"2006-06-13")):
        for place in range(len(good) + 1):
            lines = b"\n".join(good[:place] + octet + good[place + 1:] for octet in octets)
            same((question, good, place), ask(words_of(question), lines), expected_lines(question, lines))


def check_odd_lines():
    """Few octets, with newlines anywhere, and no input at all."""
    for count in range(4):
        for parts in itertools.product((b"\n", b"0558", b"\r", b"\0"), repeat=count):
            same(parts, ask(words_of(HEX_DATES), b"".join(parts)), expected_lines(HEX_DATES, b"".join(parts)))
    for octets in (b"", b"\n", b"\n\n\n", b"2006-06-13", b"2006-06-13\n", b"\n2006-06-13", b"\xff\n\xfe", some_lines()):
        same(octets, ask(words_of(DATES), octets), expected_lines(DATES, octets))
        with open(FOLDER / "in", "wb") as file:
            file.write(octets)
        with open(FOLDER / "in", "rb") as file:
            same(octets, ask(words_of(DATES), stdin=file), expected_lines(DATES, octets))
    same("no input", ask(words_of(DATES), stdin=subprocess.DEVNULL), Answer(0, b"", b""))


def long_lines():
    """Questions with lines around the length of a read, and of 1 MiB, good at their start or as a whole."""
    for length in (65535, 65536, 65537, 131072, 1 << 20):
        for question, start, filling in (
            (DATES, b"2006-06-13", b" "), (DATES, b"", b"2006-06-13\r"), (Question(b"der", b"DURATION", NO_LIMITS), b"P", b"1"),
            (HEX_DATES, b"0558", b"0"), (HEX_DATES, b"04", b"78"), (Question(b"under", b"DATE", NO_LIMITS), b"1F1F08", b"32"),
            (Question(b"unper", b"DATE ", NO_LIMITS), b"0558", b"0"),
        ):
            line = (start + filling * length)[:length]
            yield question, line
            yield question, line[:-1] + b"g"
    for k in (0, 1, 4, 1000, 65535, 65536, (1 << 20) - 2, (1 << 20) - 1):
        yield HEX_DATES, b"0" * k + b"g" + b"0" * ((1 << 20) - k - 1)


def check_long_lines():
    """The number of a long line is that of the whole line, and the lines around it have theirs."""
    short = {False: b"2006-06-13", True: b"0558"}
    for question, line in long_lines():
        other = short[question.work.startswith(b"un")]
        octets = b"\n".join((other, line, other))
        same((question, line[:20], len(line), line[-3:]), ask(words_of(question), octets), expected_lines(question, octets))


def check_many_lines():
    """More lines than are read and written at a time, of lengths that meet the ends of a read in every way."""
    durations = Question(b"der", b"DURATION", NO_LIMITS)
    longest = b"P" + b"".join(b"999999999" + letter for letter in (b"Y", b"M", b"DT", b"H", b"M")) + b"999999999.123456789S"
    for question, texts in (
        (DATES, [b"2006-06-13", b"2004-02-29", b"9999-12-31"]), (Question(b"der", b"DATE", NO_LIMITS), [b"2006-06-13"]),
        (durations, [longest, b"P1Y6M", b"PT0,5S"]), (HEX_DATES, [b"0558", b"bfC780"]),
    ):
        lines = texts * (60000 // len(texts)) + [texts[0]]
        few = expected(question, texts, "line", bits=True).out.splitlines(True)
        wanted = Answer(0, b"".join(few * (60000 // len(texts)) + few[:1]), b"")
        same((question, texts), ask(words_of(question, bits=True), b"\n".join(lines)), wanted)
    refused = b"x\n" * 20000
    same("many refused lines", ask(words_of(DATES), refused), expected_lines(DATES, refused))


def check_order():
    """Where both streams are one, each message stands behind the results before it, and before its own empty line."""
    lines = split_lines(some_lines())
    for inputs, source, words, octets in (
        (lines, "line", words_of(DATES), some_lines()),
        (lines[3:6], "argument", words_of(DATES, texts=lines[3:6]), b""),
    ):
        wanted = b"".join(message + line for line, message in replies(DATES, inputs, source))
        same(words, ask(words, octets, stderr=subprocess.STDOUT), Answer(1, wanted, None))


# The words of the command line.


def check_years():
    """Each way to give years, against years around them; one alone leaves the other side open."""
    lists = b"Basic=Date Date=Y Year=Negative|Basic=Date Date=Y Year=L9|Basic=Date Date=Y Year=L5"
    years = Question(b"der", lists, NO_LIMITS)
    texts = [b"-99999", b"-10000", b"-0129", b"-0128", b"-0127", b"-0001", b"+10000", b"+99999", b"-999999999", b"-999999998",
             b"+100000000", b"+999999999", b"+100000", b"2006"]
    lowest, highest = -(1 << 31), (1 << 31) - 1
    values = {b"-128": -128, b"-0128": -128, b"+10000": 10000, b"0": 0, b"-0": 0, b"+0": 0, b"%d" % lowest: lowest,
              b"+%d" % highest: highest, b"-00000000000000000000127": -127, b"-99999": -99999, b"-999999998": -999999998, b"+999999999": 999999999}
    for (low, a), (high, b) in itertools.product([(None, lowest), *values.items()], [(None, highest), *values.items()]):
        words = ([b"--from", low] if low else []) + ([b"--to=" + high] if high else [])
        limits = Limits((a, b), False) if words else NO_LIMITS
        wanted = expected(years._replace(limits=limits), texts, "argument")
        same(words, ask([b"der", years.type_text, *words, b"--", *texts]), wanted)
    for words, question in (
        ([b"per", b"TIME-OF-DAY", b"--from=1"], Question(b"per", b"TIME-OF-DAY", Limits((1, highest), False))),
        ([b"per", b"DATE", b"--no-24"], Question(b"per", b"DATE", Limits(None, True))),
        ([b"per", b"DATE-TIME", b"--no-24"], Question(b"per", b"DATE-TIME", Limits(None, True))),
        ([b"per", b"DATE-TIME", b"--no-24", b"--to", b"2005"], Question(b"per", b"DATE-TIME", Limits((lowest, 2005), True))),
        ([b"per", b"DURATION", b"--to", b"2005"], Question(b"per", b"DURATION", Limits((lowest, 2005), False))),
    ):
        texts = [b"24:00:00", b"2006-06-13", b"2006-06-13T24:00:00", b"2005-06-13T23:00:00", b"P1D"]
        same(words, ask([*words, *texts]), expected(question, texts, "argument"))


def check_places():
    """Options stand anywhere behind the work; behind `--` there are none; `-` alone is standard input."""
    question = Question(b"per", b"DATE", Limits((2000, 2010), False))
    texts = [b"2006-06-13", b"1999-06-13"]
    wanted = expected(question, texts, "argument", True, True)
    parts = ([b"DATE", *texts], [b"--from", b"2000"], [b"--to=2010"], [b"--bits"], [b"--explain"])
    for order in itertools.permutations(parts):
        same(order, ask([b"per", *itertools.chain(*order)]), wanted)
    for place in range(4):
        words = [b"DATE", *texts]
        words[place:place] = [b"--bits", b"--to", b"2010", b"--explain", b"--from", b"2000"]
        same(words, ask([b"per", *words]), wanted)
    for words in ([], [b"-"], [b"--", b"-"], [b"-", b"--"], [b"--"]):
        same(words, ask([b"per", b"DATE", *words], some_lines()), expected_lines(DATES, some_lines()))
    texts = [b"-0128", b"-x", b"--", b"--bits", b"--help", b"---", b"", b"2006-06-13", b"--from", b"-1", b"\x1b[31m", b"\xff"]
    same(texts, ask([b"per", b"DATE", b"--", *texts]), expected(DATES, texts, "argument"))
    single = [text for text in texts if not text.startswith(b"--")]
    same(single, ask([b"per", b"DATE", *single]), expected(DATES, single, "argument"))
    for type_text in (b"--", b"--bits", b"-", b"", b"DATE|DATE", b"\xff"):
        question = Question(b"per", type_text, NO_LIMITS)
        same(type_text, ask([b"per", b"--", type_text, b"2006"]), expected(question, [b"2006"], "argument"))


WRONG_YEARS = (
    b"", b"-", b"+", b"x", b"2000x", b"x2000", b" 2000", b"2000 ", b"20 00", b"+-2000", b"--2000", b"2000.0", b"0x10", b"1e3",
    b"2147483648", b"-2147483649", b"4294967296", b"99999999999999999999999", b"-99999999999999999999999", b"\xd9\xa2", b"2000\n",
    b"--to", b"--", b"9223372036854775808", b"18446744073709551616",
)


def wrong_words():
    """Command lines that are wrong, each with the problem."""
    work = "the first word is not per, unper, der or under"
    yield [], "there is no work"
    for word in (b"", b"PER", b"pe", b"perr", b"per ", b"encode", b"--", b"-", b"--bits", b"\x1b[31m", b"--help=1", b"--hel"):
        yield [word, b"DATE", b"2006-06-13"], work
    yield from (([b"--help", b"per"], work), ([b"--version", b"--help"], work), ([b"--help", b"--help"], work))
    for words in ([b"per"], [b"per", b"--"], [b"der", b"--bits"], [b"unper", b"--from", b"1", b"--"]):
        yield words, "there is no type"
    for word in (b"--bit", b"--bitss", b"--bits=1", b"--explain=", b"--no-24=1", b"--no24", b"---", b"--=", b"--help", b"--version",
                 b"--From", b"--from ", b"--froms=1", b"--fr", b"--t=1", b"--a b", b"--" + b"x" * 62):
        yield [b"per", b"DATE", word, b"2006-06-13"], "unknown option: " + word.decode()
    for word in (b"\x1b[31m", b"\n", b"\xc3\xa9", b"bits\xff", b"\x7f", b"bits=\x01", b"x" * 63, b"x" * 9999):
        yield [b"per", b"DATE", b"--" + word, b"2006-06-13"], "unknown option"
    for option in (b"--from", b"--to"):
        yield [b"per", b"DATE", option], "no year: " + option.decode()
        for year in WRONG_YEARS:
            yield [b"per", b"DATE", option, year, b"2006-06-13"], "no year of 32 bits: " + option.decode()
            yield [b"per", option + b"=" + year, b"DATE", b"2006-06-13"], "no year of 32 bits: " + option.decode()
    for option in ([b"--bits"], [b"--explain"], [b"--no-24"], [b"--from", b"1"], [b"--from=1"], [b"--to", b"1"], [b"--to=1"]):
        yield [b"per", *option, b"DATE", b"2006-06-13", *option], "an option twice: " + option[0].split(b"=")[0].decode()
    for texts in ([b"-", b"-"], [b"-", b"2006-06-13"], [b"2006-06-13", b"-"], [b"-", b"--", b"-"], [b"--", b"", b"-"]):
        yield [b"per", b"DATE", *texts], "- is standard input, and stands beside other texts"


def check_wrong_words():
    """Wrong use has status 2, a message that names the problem, and nothing on standard output."""
    for words, problem in wrong_words():
        wanted = Answer(2, b"", f"anafzir: {problem}\nTry 'anafzir --help'.\n".encode())
        same(words, ask(words, b"2006-06-13\n"), wanted)
    with open("/dev/full", "wb") as full:
        same("wrong use before a full device", ask([b"per"], stdout=full).status, 2)


def check_help():
    """The version is that of the project, and the help names every work, option and status."""
    version = (ROOT / "VERSION").read_text("ascii").strip()
    same("--version", ask([b"--version"]), Answer(0, f"anafzir {version}\n".encode(), b""))
    got = ask([b"--help"])
    same("--help", got._replace(out=b""), Answer(0, b"", b""))
    for word in (b"per", b"unper", b"der", b"under", b"--from YEAR", b"--to YEAR", b"--no-24", b"--bits", b"--explain",
                 b"--version", b"DATE, TIME-OF-DAY, DATE-TIME or DURATION", b"0 all", b"1 some", b"2 wrong use"):
        same(("--help", word), word in got.out, True)
    same("--help, longest line", max(map(len, got.out.splitlines())) <= 110, True)


# Faults of the system.


def check_full_device():
    """A device without space: status 2, also where inputs were refused before."""
    many = [b"2006-06-13"] * 20000
    for words, octets, before in (
        ([b"per", b"DATE", b"2006-06-13"], b"", b""), ([b"--help"], b"", b""), ([b"--version"], b"", b""),
        ([b"per", b"DATE"], b"2006-06-13", b""), ([b"per", b"DATE"], b"\n".join(many), b""), ([b"per", b"DATE", *many], b"", b""),
        ([b"per", b"DATE", b"x"], b"", b"anafzir: argument 1: refused, 3\n"), ([b"per", b"DATE", b"2006-06-13", b"x"], b"", b""),
        ([b"per", b"DATE"], b"\n2006-06-13\n\n", b"anafzir: line 1: refused, 3\n"),
    ):
        with open("/dev/full", "wb") as full:
            got = ask(words, octets, stdout=full)
        same((words[:4], "on a full device"), got, failure(Answer(0, None, before), "output", "No space left on device"))


def check_closed_pipe():
    """A pipe without a reader: the signal ends the program, and where it is ignored the write has failed."""
    date, many = [b"per", b"DATE", b"2006-06-13"], b"2006-06-13\n" * 30000
    for words, octets in ((date, b""), (date[:2], many), ([b"--help"], b"")):
        for ignored in (False, True):
            read_end, write_end = os.pipe()
            os.close(read_end)
            got = ask(words, octets, stdout=write_end, restore_signals=not ignored)
            os.close(write_end)
            wanted = failure(Answer(2, None, b""), "output", "Broken pipe") if ignored else Answer(-signal.SIGPIPE, None, b"")
            same((words, "into a closed pipe, ignored" if ignored else "into a closed pipe"), got, wanted)


def ask_by_shell(redirection, words, octets=b""):
    """What a run gives whose descriptors the shell has changed."""
    command = ["sh", "-c", f'exec "$@" {redirection}', "sh", PROGRAM, *words]
    run = subprocess.run(command, input=octets, capture_output=True, timeout=LONGEST_RUN)
    return Answer(run.returncode, run.stdout, run.stderr)


def check_closed_descriptors():
    """Descriptors that are closed, or open for the other direction, or a directory."""
    nothing = Answer(0, b"", b"")
    date, line = [b"per", b"DATE", b"2006-06-13"], b"2006-06-13\n"
    done = expected(DATES, [b"2006-06-13"], "argument")
    for redirection, words, wanted in (
        (">&-", date, failure(nothing, "output", "Bad file descriptor")),
        (">&-", date[:2], failure(nothing, "output", "Bad file descriptor")),
        (">&- < /dev/null", date[:2], failure(nothing, "output", "Bad file descriptor")),
        (">&-", [b"--help"], failure(nothing, "output", "Bad file descriptor")),
        (">&-", [b"--version"], failure(nothing, "output", "Bad file descriptor")),
        ("1< /dev/null", date, failure(nothing, "output", "Bad file descriptor")),
        ("<&-", date[:2], failure(nothing, "input", "Bad file descriptor")),
        ("0> /dev/null", date[:2], failure(nothing, "input", "Bad file descriptor")),
        ("<&- >&-", date[:2], failure(nothing, "input", "Bad file descriptor")),
        ("< /", date[:2], failure(nothing, "input", "Is a directory")),
        ("< /", [*date[:2], b"-"], failure(nothing, "input", "Is a directory")),
        ("<&-", date, done), ("< /", date, done), ("2>&-", date, done), ("<&- 2>&-", date, done),
        ("2>&-", [*date, b"x"], Answer(1, b"0558\n\n", b"")), ("2> /dev/full", [*date, b"x"], Answer(1, b"0558\n\n", b"")),
        ("2>&-", [b"per"], Answer(2, b"", b"")), (">&- 2>&-", date, Answer(2, b"", b"")),
    ):
        same((redirection, words), ask_by_shell(redirection, words, line), wanted)


def fault_lists():
    """Lists of faults that a program must get over: each has a word that moves something."""
    moving, halting = ("ok", "short", "few"), ("intr", "again")
    yield from moving
    yield from (f"{first},{second}" for first, second in itertools.product(halting, moving))
    yield from ("short,few", "few,ok", "intr,again,short", "again,intr,few")
    yield from ("intr,intr,again,again,again,short", "ok,short,intr,few,again")


def check_mixed_faults():
    """Interrupted, waiting and short calls change nothing, whichever of them meet."""
    octets = some_lines()
    wanted = expected_lines(DATES, octets)
    for reads, writes in itertools.product(fault_lists(), repeat=2):
        same((reads, writes), ask(words_of(DATES), octets, faulty(reads, writes)), wanted)
    texts = [b"2006-06-13", b"x", b"2006-06-14", b"2004-02-29"]
    for writes in fault_lists():
        words = words_of(DATES, True, True, texts)
        same((words, writes), ask(words, b"", faulty("eio*", writes)), expected(DATES, texts, "argument", True, True))
    many = b"2006-06-13\n" * 20000
    for faults in ("intr,few,again", "few"):
        same(("many lines", faults), ask(words_of(DATES), many, faulty(writes=faults)), Answer(0, b"0558\n" * 20000, b""))
        same(("many lines", faults), ask(words_of(DATES), many, faulty(reads=faults)), Answer(0, b"0558\n" * 20000, b""))


def check_failed_reads():
    """A read that fails behind each octet of the input: the whole lines before it are answered, and no other."""
    octets = b"2006-06-13\n\n2006-06-14\nx\n2004-02-29\n9999"
    for count in range(len(octets) + 1):
        whole = octets[:octets[:count].rfind(b"\n") + 1]
        wanted = failure(expected_lines(DATES, whole), "input", "Input/output error")
        same(("failed read", count), ask(words_of(DATES), octets, faulty("short," * count + "eio*")), wanted)
    for reads in ("eio", "intr,again,eio", "again,eio*"):
        wanted = failure(Answer(0, b"", b""), "input", "Input/output error")
        same(("failed read", reads), ask(words_of(DATES), octets, faulty(reads)), wanted)
    ends = faulty("short," * len(octets) + "zero,eio*")
    same("nothing is read behind the end", ask(words_of(DATES), octets, ends), expected_lines(DATES, octets))


def failed_write(lines, count, error):
    """The answer where so many octets of the output are taken, and then no more: a message is written behind all results before
    its own."""
    out, err = b"", b""
    for line, message in lines:
        if message and len(out) > count:
            break
        out, err = out + line, err + message
    return failure(Answer(2, out[:count], err), "output", error)


def check_failed_writes():
    """A write that fails behind each octet of the output, and one that takes nothing."""
    octets = b"2006-06-13\n\n2006-06-14\nx\n2004-02-29\n9999-12-31"
    inputs = split_lines(octets)
    for source, words in (("line", words_of(DATES)), ("argument", words_of(DATES, texts=inputs))):
        lines, whole = list(replies(DATES, inputs, source)), expected(DATES, inputs, source)
        for count, (word, error) in itertools.product(range(len(whole.out) + 1), (
            ("nospace", "No space left on device"), ("eio", "Input/output error"), ("zero", "nothing was taken"),
        )):
            got = ask(words, octets, faulty(writes="short," * count + word + "*"))
            same(("failed write", words, word, count), got,
                 whole if count == len(whole.out) else failed_write(lines, count, error))
    for words in ([b"--help"], [b"--version"]):
        got = ask(words, b"", faulty(writes="few,eio"))
        same((words, "failed write"), got, failure(Answer(2, ask(words).out[:7], b""), "output", "Input/output error"))


def check_failed_close():
    """An error that is told at the end."""
    date = [b"per", b"DATE", b"2006-06-13"]
    for words, closes, wanted in (
        (date, "nospace", failure(Answer(0, b"0558\n", b""), "output", "No space left on device")),
        (date, "eio", failure(Answer(0, b"0558\n", b""), "output", "Input/output error")),
        ([*date, b"x"], "eio", failure(expected(DATES, [b"2006-06-13", b"x"], "argument"), "output", "Input/output error")),
        (date[:2], "eio", failure(Answer(0, b"", b""), "output", "Input/output error")),
        (date, "intr", Answer(0, b"0558\n", b"")),
    ):
        same((words, "close", closes), ask(words, b"", faulty(closes=closes)), wanted)
    got = ask([b"--version"], b"", faulty(closes="nospace"))
    same("--version, close", got, failure(ask([b"--version"]), "output", "No space left on device"))


def check_memory():
    """A line longer than the memory; the lines before it are answered. A build with checks inside needs more to begin with, and is
    not asked."""
    def limit():
        resource.setrlimit(resource.RLIMIT_AS, (1 << 25, 1 << 25))
    if ask([b"--version"], preexec_fn=limit).status != 0:
        return
    octets = b"2006-06-13\nx\n" + b"0" * (1 << 25)
    wanted = failure(expected_lines(DATES, b"2006-06-13\nx\n"), "input", "Cannot allocate memory")
    same("a line of 32 MiB in as much memory", ask(words_of(DATES), octets, preexec_fn=limit), wanted)


# Programs that wait for each other.


def processor_time(program):
    """How many seconds a program has used."""
    fields = Path(f"/proc/{program.pid}/stat").read_text("ascii").rpartition(")")[2].split()
    return (int(fields[11]) + int(fields[12])) / os.sysconf("SC_CLK_TCK")


def check_idle(what, program):
    """A program that has to wait does so without using the processor, soon after it was started."""
    for _ in range(40):
        before = processor_time(program)
        time.sleep(0.2)
        if processor_time(program) - before < 0.04:
            return
    same((what, "waits"), "busy", "idle")


def read_octets(stream, count):
    """So many octets of a pipe; fewer at its end, and where none come."""
    octets = b""
    while len(octets) < count and select.select([stream], [], [], LONGEST_RUN)[0]:
        got = os.read(stream, count - len(octets))
        if not got:
            break
        octets += got
    return octets


def narrow_pipe():
    """Both ends of a pipe that holds little, and does not block who writes."""
    read_end, write_end = os.pipe()
    fcntl.fcntl(write_end, getattr(fcntl, "F_SETPIPE_SZ", 1031), 4096)
    os.set_blocking(write_end, False)
    return read_end, write_end


def check_slow_readers():
    """Standard output and standard error that do not block, with a slow reader: all octets arrive."""
    octets = (b"2006-06-13\n" * 3 + b"2006-02-29\n") * 1500
    wanted = expected_lines(DATES, octets)
    (FOLDER / "in").write_bytes(octets)
    for slow, quick in (("stdout", "stderr"), ("stderr", "stdout")):
        read_end, write_end = narrow_pipe()
        with open(FOLDER / "in", "rb") as file, open(FOLDER / "quick", "wb") as other:
            program = subprocess.Popen([PROGRAM, *words_of(DATES)], stdin=file, **{slow: write_end, quick: other})
        os.close(write_end)
        check_idle(slow, program)
        slowly = b""
        while piece := read_octets(read_end, 2500):
            slowly += piece
            time.sleep(0.002)
        os.close(read_end)
        status, quickly = program.wait(LONGEST_RUN), (FOLDER / "quick").read_bytes()
        got = Answer(status, slowly, quickly) if slow == "stdout" else Answer(status, quickly, slowly)
        same((slow, "with a slow reader"), got, wanted)


def check_late_input():
    """Standard input that does not block, and has its data late: each reply comes before the next line."""
    read_end, write_end = os.pipe()
    os.set_blocking(read_end, False)
    program = subprocess.Popen([PROGRAM, *words_of(DATES)], stdin=read_end, stdout=subprocess.PIPE)
    os.close(read_end)
    out = program.stdout.fileno()
    check_idle("late input", program)
    for octets, reply in ((b"2006-06-13\n2006-0", b"0558\n"), (b"6-13\n2004-02-29\n", b"0558\nBFC780\n"), (b"2004-02-29", b"")):
        os.write(write_end, octets)
        same(("late input", octets), read_octets(out, len(reply)), reply)
    check_idle("half a line", program)
    os.close(write_end)
    same("late input, its end", (read_octets(out, 99), program.wait(LONGEST_RUN)), (b"BFC780\n", 0))
    program.stdout.close()


def check_conversation():
    """A program that waits for each reply. When an empty line comes, its message is there already."""
    inputs = split_lines(some_lines())
    with open(FOLDER / "err", "wb") as err:
        streams = {"stdin": subprocess.PIPE, "stdout": subprocess.PIPE, "stderr": err, "bufsize": 0}
        program = subprocess.Popen([PROGRAM, *words_of(DATES)], **streams)
    messages = b""
    for given, (line, message) in zip(inputs, replies(DATES, inputs, "line")):
        program.stdin.write(given + b"\n")
        same(("conversation", given), read_octets(program.stdout.fileno(), len(line)), line)
        messages += message
        same(("conversation", given), (FOLDER / "err").read_bytes(), messages)
    program.stdin.close()
    same("conversation, its end", (program.stdout.read(), program.wait(LONGEST_RUN)), (b"", 1))
    program.stdout.close()


# The manual pages.

MARK = "---- the end of a command ----\n"
ESCAPES = {"\\-": "-", "\\(aq": "'", "\\e": "\\"}


def unescaped(text):
    """The text that a manual page shows."""
    return re.sub(r"\\(\(..|.)", lambda escape: ESCAPES[escape.group()], text)


def examples(page):
    """The commands of each example with what they print."""
    for block in re.findall(r"^\.EX\n(.*?)^\.EE\n", page, re.M | re.S):
        yield re.findall(r"^\$ (.*\n)((?:(?!\$ ).*\n)*)", unescaped(block), re.M)


def check_page(name, least):
    """The examples of a page print what it shows, its version is that of the project, and it can be shown without a warning."""
    path = ROOT / "man" / name
    page = path.read_text("ascii")
    version = (ROOT / "VERSION").read_text("ascii").strip()
    same((name, "version"), f'"anafzir {version}"' in page, True)
    count = 0
    environment = {**os.environ, "PATH": f"{FOLDER}:{os.environ['PATH']}"}
    for example in examples(page):
        script = "".join(f"{command}echo '{MARK.strip()}'\n" for command, _ in example)
        run = subprocess.run(["sh", "-c", script], cwd=FOLDER, env=environment, text=True, timeout=LONGEST_RUN,
                             stdin=subprocess.DEVNULL, stdout=subprocess.PIPE, stderr=subprocess.STDOUT)
        printed = run.stdout.split(MARK)
        for (command, shows), prints in zip(example, printed):
            same((name, command), prints, shows)
        same((name, "commands"), len(printed) - 1, len(example))
        count += len(example)
    same((name, "examples"), count >= least, True)
    if shutil.which("groff"):
        run = subprocess.run(["groff", "-man", "-Tutf8", "-ww", path], stdout=subprocess.DEVNULL, stderr=subprocess.PIPE, text=True)
        same((name, "groff"), (run.returncode, run.stderr), (0, ""))


def check_pages():
    """Both pages; that of the program has each option, and the sentence of each refusal."""
    check_page("anafzir.1", 12)
    check_page("anafzir-convert.1", 7)
    page = (ROOT / "man/anafzir.1").read_text("ascii")
    for number, sentence in SENTENCES.items():
        same(("anafzir.1", number), f"\n.B {number}\n{sentence}\n" in page, True)
    for option in ("from", "to", "no-24", "bits", "explain", "help", "version"):
        same(("anafzir.1", option), re.search(r"^\.BI? \\-\\-" + option.replace("-", r"\\-") + r"\b", page, re.M) is not None, True)


# Each check once, those with the plainest messages first.
CHECKS = (
    check_help, check_odd_lines, check_every_octet, check_order, check_places, check_years, check_wrong_words, check_full_device,
    check_closed_pipe, check_closed_descriptors, check_failed_reads, check_failed_writes, check_failed_close, check_mixed_faults,
    check_memory, check_conversation, check_late_input, check_slow_readers, check_pieces, check_long_lines, check_many_lines,
    check_all_questions, check_pages,
)


def prepare(words):
    """Puts the programs and the library into the folder."""
    program = Path(words[0] if words else ROOT / "build/anafzir").resolve()
    converts = [program.parent / "anafzir-convert", ROOT / "build/anafzir-convert", ROOT / "crates/convert/out/convert"]
    convert = next((path for path in converts if path.exists()), None)
    if not program.exists() or convert is None:
        sys.exit(f"there is no {program}, or no anafzir-convert: make builds them")
    PROGRAM.symlink_to(program)
    CONVERT.symlink_to(convert)
    if len(words) > 1:
        FAULTY.symlink_to(Path(words[1]).resolve())
    else:
        flags = ["-std=c99", "-Wall", "-Wextra", "-Werror", "-shared", "-fPIC"]
        subprocess.run(["cc", *flags, "-o", FAULTY, ROOT / "tests/c/faulty_io.c", "-ldl"], check=True)


def main():
    try:
        if len(sys.argv) > 3:
            sys.exit("usage: anafzir_program.py [PROGRAM [LIBRARY]]")
        prepare(sys.argv[1:])
        for check in CHECKS:
            check()
    finally:
        shutil.rmtree(FOLDER)


if __name__ == "__main__":
    main()
