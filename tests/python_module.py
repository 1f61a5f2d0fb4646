"""Calls the Python module and compares it with the reference: every question of the reference's lines, in all the ways in which a
type, a text and octets can be given, and in several threads; then limits, errors, types, how the library is found, other libraries
in its place, and the example.

    python3 tests/python_module.py [FOLDER [LIBRARY]]

FOLDER has the module, and is python/ where it is not given; LIBRARY is build/libanafzir.so.0. It needs a C compiler. Prints the
first difference and exits 1, or prints nothing."""

import ast
import copy
import doctest
import inspect
import itertools
import os
import pickle
import re
import shutil
import subprocess
import sys
import tempfile
import typing
from array import array
from collections import namedtuple
from concurrent.futures import ThreadPoolExecutor
from ctypes import CDLL, c_char_p
from functools import partial
from pathlib import Path

ROOT = Path(__file__).resolve().parent.parent
FOLDER = Path(sys.argv[1] if len(sys.argv) > 1 else ROOT / "python").resolve()
LIBRARY = Path(sys.argv[2] if len(sys.argv) > 2 else ROOT / "build/libanafzir.so.0").resolve()
NAME = "libanafzir.so.0"

sys.dont_write_bytecode = True
os.environ["ANAFZIR_LIBRARY"] = str(LIBRARY)
sys.path[:0] = [str(FOLDER), str(ROOT / "reference")]
import anafzir  # noqa: E402
import coding_lines  # noqa: E402
import convert_lines  # noqa: E402
import der  # noqa: E402
import per  # noqa: E402
import value_lines  # noqa: E402
from checks import HMS_LD, HMS_Z, LONGEST_DURATION, ROOM, SIX_LISTS, Y_BASIC, Y_L5, Y_L6, Y_L9, Y_PROLEPTIC, agree  # noqa: E402
from settings import NO_LIMITS, Limits  # noqa: E402

HEADER = (ROOT / "include/anafzir.h").read_text("utf-8")

# the errors by their numbers, from 1 on
ERRORS = ("BadType", "MixedType", "BadForm", "NoSuchValue", "NotInType", "NotCanonical", "ShortRoom")
PUBLIC = {"Type", "DATE", "TIME_OF_DAY", "DATE_TIME", "DURATION", "encode", "decode", "Refused", *ERRORS}

# what the reference does for each work, under which rules, and whether it decodes
Work = namedtuple("Work", "answer rules decodes")
PER, DER = Work(per.encode, "per", False), Work(der.encode, "der", False)
UNPER, UNDER = Work(per.decode, "per", True), Work(der.decode, "der", True)
LETTERS = {b"e": PER, b"t": DER, b"d": UNPER, b"u": UNDER}
WORKS = {b"per": PER, b"der": DER, b"unper": UNPER, b"under": UNDER}

Question = namedtuple("Question", "work type_text limits given")


def wanted(question):
    """The reference's number, result and bits, in the room that the module lends."""
    return question.work.answer(question.type_text, question.limits, question.given, ROOM)


def parts(line):
    """The three parts of a line; empty where there are fewer."""
    return (line.split(b";", 2) + [b"", b""])[:3]


def question_of(work, type_text, limits, given):
    """A question; none where octets are not given in hex digits."""
    if not work.decodes:
        yield Question(work, type_text, limits, given)
    elif coding_lines.HEX.fullmatch(given):
        yield Question(work, type_text, limits, bytes.fromhex(given.decode("ascii")))


def questions():
    """What the reference's lines ask; the room that some of them name is left out."""
    for head, type_text, given in map(parts, coding_lines.all_lines()):
        if len(head) == 3 and head[:1] in LETTERS and head[1:2] in value_lines.MENU:
            yield from question_of(LETTERS[head[:1]], type_text, value_lines.MENU[head[1:2]], given)
    for head, type_text, given in map(parts, value_lines.text_lines()):
        if head in value_lines.MENU:
            yield from (Question(work, type_text, value_lines.MENU[head], given) for work in (PER, DER))
    for head, type_text, given in map(parts, convert_lines.all_lines()):
        if head in WORKS:
            yield from question_of(WORKS[head], type_text, NO_LIMITS, given)


def as_str(octets):
    """The str with these octets, where there is one."""
    try:
        return octets.decode("utf-8", "surrogatepass")
    except UnicodeDecodeError:
        return octets


def strided(octets):
    """A view of every second octet."""
    between = bytearray(b"\xAA" * (2 * len(octets)))
    between[::2] = octets
    return memoryview(between)[::2]


def backward(octets):
    """A view from the last octet to the first."""
    return memoryview(octets[::-1])[::-1]


FORMS_OF_TEXTS = (as_str, bytes)
FORMS_OF_OCTETS = (bytes, bytearray, memoryview, strided, backward)


def type_in_form(question, k):
    """A type made of a str or of bytes, or these themselves where there are no limits, in turn."""
    text, limits = FORMS_OF_TEXTS[k % 2](question.type_text), question.limits
    if limits == NO_LIMITS and k % 3 == 0:
        return text
    lowest, highest = limits.window or (None, None)
    return anafzir.Type(text, lowest=lowest, highest=highest, no_hour_24=limits.no_hour_24)


def called(work, type_, given, with_bits):
    """The result and the bits; None for bits that were not asked for."""
    if not isinstance(type_, anafzir.Type):
        return (anafzir.decode if work.decodes else anafzir.encode)(type_, given, work.rules), None
    if work.rules == "per" and with_bits:
        return type_.decode_with_bits(given) if work.decodes else type_.encode_with_bits(given)
    return (type_.decode if work.decodes else type_.encode)(given, work.rules), None


def found(work, type_, given, with_bits=True):
    """The number, the result and the bits that the module gives, with the result as octets."""
    try:
        result, bits = called(work, type_, given, with_bits)
    except anafzir.Refused as refused:
        agree(type(refused).__name__, ERRORS[refused.number - 1], "the class of number", refused.number)
        return refused.number, b"", 0
    agree(type(result), str if work.decodes else bytes, "the type of", result)
    return 0, result.encode("ascii") if work.decodes else result, bits


def compare(work, type_, given, answer, with_bits=True):
    """Whether the module gives the answer, with its bits where they were asked for."""
    number, result, bits = found(work, type_, given, with_bits)
    shown = ascii(type_)[:200], ascii(given.tobytes() if isinstance(given, memoryview) else given)[:200]
    agree((number, result, bits), (*answer[:2], answer[2] if bits is not None else None), work.rules, *shown)


def compare_in_form(question, answer, k):
    """One question in the k-th way."""
    forms = FORMS_OF_OCTETS if question.work.decodes else FORMS_OF_TEXTS
    compare(question.work, type_in_form(question, k), forms[k // 2 % len(forms)](question.given), answer, k % 5 != 0)


def check_lines(answers):
    """Every question in two ways, in one of them with a Type; every number but 7 occurs."""
    for k, (question, answer) in enumerate(answers.items()):
        compare_in_form(question, answer, k)
        compare_in_form(question, answer, k // 2 * 3 + 1)
    agree({answer[0] for answer in answers.values()}, {0, 1, 2, 3, 4, 5, 6}, "the numbers of the lines")


def check_threads(answers):
    """Questions with results in several threads at once, which change as often as they can, each beginning elsewhere."""
    results = [(question, answer) for question, answer in answers.items() if answer[0] == 0][::7]

    def work(start):
        for k, (question, answer) in enumerate(results[start:] + results[:start]):
            compare_in_form(question, answer, k)

    interval = sys.getswitchinterval()
    sys.setswitchinterval(1e-6)
    with ThreadPoolExecutor(6) as threads:
        list(threads.map(work, range(0, len(results), len(results) // 6)))
    sys.setswitchinterval(interval)


class LyingText(str):
    """A str that says of itself what is not so."""

    def encode(self, *_):
        return b"x"

    def __len__(self):
        return 10 ** 9


class LyingBytes(bytes):
    """Bytes that do."""

    def __len__(self):
        return 10 ** 9

    def __bytes__(self):
        return b"x"


class LyingArray(bytearray):
    """A bytearray that does."""

    def __len__(self):
        return 10 ** 9

    def __bytes__(self):
        return b"x"


# dates in other characters, and with more of them
STRANGE_TEXTS = (
    "", "\0", "2006-06-13\0", "\0002006-06-13", "2006\0-06-13", "2006-06-13\n", "2006\u221206\u221213",
    "\u0662\u0660\u0660\u0666-06-13", "\uff12\uff10\uff10\uff16-06-13", "\xb2006-06-13", "\ud800", "\udfff", "\udc80",
    "2006-06-1\udcb3", "\ud83d\ude00", "\U0001F600", "\ufeff2006-06-13", "2006-06-13\xe9\xe9\xe9", "9" * 100000, "\xe9" * 100000,
    "2006-06-13",
)
STRANGE_TYPES = ("DATE", "", "\0", "DATE\0", "\0DATE", "DAT\xc9", "DATE\ud800", "\udc44ATE", "DATE" * 50000, "\xe9" * 50000)


def check_texts():
    """Strs of any characters as texts and as types, and the same as octets; and subclasses."""
    for work, type_text, text in itertools.product((PER, DER), STRANGE_TYPES, STRANGE_TEXTS):
        in_octets = [given.encode("utf-8", "surrogatepass") for given in (type_text, text)]
        answer = wanted(Question(work, in_octets[0], NO_LIMITS, in_octets[1]))
        for type_, given in itertools.product((type_text, in_octets[0]), (text, in_octets[1])):
            compare(work, type_, given, answer)
            compare(work, anafzir.Type(type_), given, answer)
    for type_, given in itertools.product(("DATE", LyingText("DATE"), LyingBytes(b"DATE")),
                                          (LyingText("2006-06-13"), LyingBytes(b"2006-06-13"))):
        agree(anafzir.encode(type_, given), b"\x05\x58", "subclasses", type(type_), type(given))
        agree(anafzir.Type(type_).encode_with_bits(given), (b"\x05\x58", 15), "subclasses", type(type_), type(given))


def check_octets():
    """Octets of every kind and length; nothing is kept of them."""
    date, changing, pairs = b"\x05\x58", bytearray(b"\x05\x58"), array("H", [0, 0])
    memoryview(pairs).cast("B")[:2] = date
    for octets in (date, changing, memoryview(date), memoryview(changing), memoryview(changing).toreadonly(), strided(date),
                   backward(date), memoryview(pairs)[:1], memoryview(bytes(64) + date + bytes(64))[64:66], LyingBytes(date),
                   LyingArray(date)):
        agree(anafzir.decode("DATE", octets), "2006-06-13", "octets as", type(octets))
        agree(anafzir.DATE.decode_with_bits(octets), ("2006-06-13", 15), "octets as", type(octets))
    changing.extend(b"\x00")
    compare(UNPER, "DATE", changing, (6, b"", 0))
    compare(UNDER, "DATE", memoryview(b"\x1F\x1F\x0820060613\x00").cast("B", (3, 4)), (6, b"", 0))
    for work, length in itertools.product((UNPER, UNDER), (0, 1, 127, 128, 136, 137, 4096, 10 ** 5)):
        octets = (b"\xFF" * length, b"\x1F\x1F\x0820060613" + bytes(length))[work is UNDER]
        answer = wanted(Question(work, b"DATE", NO_LIMITS, octets))
        for form in FORMS_OF_OCTETS:
            compare(work, "DATE", form(octets), answer)


def check_longest():
    """The longest results: 72 octets of text, 74 in DER."""
    for work, back in ((PER, UNPER), (DER, UNDER)):
        answer = wanted(Question(work, b"DURATION", NO_LIMITS, LONGEST_DURATION))
        compare(work, anafzir.DURATION, LONGEST_DURATION, answer)
        compare(back, anafzir.DURATION, answer[1], (0, LONGEST_DURATION, answer[2]))


def raised(error, function, *words, **names):
    """Ends the test where a call does not raise just this error; gives it back."""
    try:
        result = function(*words, **names)
    except Exception as other:
        agree(type(other), error, repr(other), "is raised by", function, ascii(words), names)
        return other
    sys.exit(f"{function} {words!a} {names}: gives {result!a} and not {error}")


def check_wrong_kinds():
    """Other types of Python are errors, also where the library would have refused, and so are other rules."""
    others = (None, 0, 5, 1.5, True, [5], (0x05, 0x58), {}, object(), range(2), anafzir.DATE, str, array("B", b"\x05\x58"))
    bad = anafzir.Type("no type")
    for other in (*others, bytearray(b"DATE"), memoryview(b"DATE")):
        for function in (bad.encode, bad.encode_with_bits, anafzir.Type):
            raised(TypeError, function, other)
        raised(TypeError, anafzir.encode, "DATE", other)
        if other is not anafzir.DATE:
            raised(TypeError, anafzir.encode, other, "2006-06-13")
            raised(TypeError, anafzir.decode, other, b"\x05\x58")
    for other in (*others, "", "\x05\x58"):
        raised(TypeError, bad.decode, other)
        raised(TypeError, bad.decode_with_bits, other)
        raised(TypeError, anafzir.decode, "DATE", other)
    for rules in ("", "PER", "Der", "per ", "uper", None, 0, ["per"]):
        raised(ValueError, anafzir.DATE.encode, "2006-06-13", rules)
        raised(ValueError, anafzir.DATE.decode, b"\x05\x58", rules)
        raised(ValueError, anafzir.encode, "DATE", "2006-06-13", rules)
        raised(ValueError, anafzir.decode, "DATE", b"\x05\x58", rules)
    for words in ((), ("DATE", 2000), ("DATE", 2000, 2010)):
        raised(TypeError, anafzir.Type, *words)


class Number:
    """A number of another class."""

    def __index__(self):
        return 2006


def check_years():
    """Years of 32 bits and no others; what is no number is an error."""
    for name, year in itertools.product(("lowest", "highest"), (2 ** 31, -2 ** 31 - 1, 2 ** 32 + 2006, 2 ** 64, -10 ** 30)):
        raised(ValueError, anafzir.Type, "DATE", **{name: year})
    for name, year in itertools.product(("lowest", "highest"), ("2006", b"2006", 2006.0, [2006], object())):
        raised(TypeError, anafzir.Type, "DATE", **{name: year})
    same = anafzir.Type("DATE", lowest=2006, highest=2006)
    agree(anafzir.Type("DATE", lowest=Number(), highest=Number()), same, "years of another class")


LIMITED = (
    (b"DATE", b"2006-06-13"), (b"DATE-TIME", b"2006-06-13T24:00:00"), (b"TIME-OF-DAY", b"24:00:00"), (b"DURATION", b"P1D"),
    (Y_L5, b"-12000"), (Y_L5, b"-12001"), (Y_PROLEPTIC, b"0000"), (Y_L9, b"-999999999"), (SIX_LISTS, b"+999999999"),
)


def check_limits():
    """Limits of one side and of both, also at the ends of 32 bits; the reference's windows have both sides."""
    years = (None, -2 ** 31, -999999999, -12000, -1, 0, 2005, 2006, 2007, 999999999, 2 ** 31 - 1)
    for lowest, highest, no_hour_24 in itertools.product(years, years, (False, True)):
        ends = (-2 ** 31 if lowest is None else lowest, 2 ** 31 - 1 if highest is None else highest)
        limits = Limits(None if lowest is highest is None else ends, no_hour_24)
        for (type_text, text), (there, back) in itertools.product(LIMITED, ((PER, UNPER), (DER, UNDER))):
            type_ = anafzir.Type(type_text, lowest=lowest, highest=highest, no_hour_24=no_hour_24)
            octets = there.answer(type_text, NO_LIMITS, text, ROOM)[1]
            compare(there, type_, text, wanted(Question(there, type_text, limits, text)))
            compare(back, type_, octets, wanted(Question(back, type_text, limits, octets)))


def check_error(error, number, name, sentence):
    """What an error says, and that it is the same after it was copied and pickled."""
    copies = [pickle.loads(pickle.dumps(error, protocol)) for protocol in range(pickle.HIGHEST_PROTOCOL + 1)]
    for each in (error, copy.copy(error), copy.deepcopy(error), *copies):
        agree(type(each), getattr(anafzir, ERRORS[number - 1]), "the class of", number)
        agree((each.number, each.name, each.sentence), (number, name, sentence), "what an error says")
        agree(str(each), f"{number}: {sentence}", "an error as a str")
        agree((isinstance(each, anafzir.Refused), isinstance(each, ValueError)), (True, True), "the classes above", number)


def check_errors():
    """An error for each number of the header; each that occurs is raised by a call."""
    message = CDLL(str(LIBRARY)).anafzir_message
    message.restype = c_char_p
    names = dict(re.findall(r"ANAFZIR_([A-Z_]+) = (\d+)", HEADER))
    says = {int(number): (int(number), name, message(int(number)).decode("ascii")) for name, number in names.items()}
    agree(sorted(says), list(range(8)), "the numbers of the header")
    for number in range(1, 8):
        check_error(getattr(anafzir, ERRORS[number - 1])(), *says[number])
    for number, function, words in (
        (1, anafzir.encode, ("Basic=Date", "2006")), (2, anafzir.encode, (Y_BASIC + b"|" + Y_L5, "2006", "der")),
        (1, anafzir.encode, (Y_BASIC + b"|" + Y_L6 + b"|" + Y_L6, "+123456")), (1, anafzir.encode, (SIX_LISTS + b"|" + Y_BASIC, "2006")),
        (2, anafzir.encode, (Y_L6 + b"|" + Y_L9 + b"|" + Y_BASIC, "+123456")),
        (3, anafzir.encode, (Y_L6, "+011985")), (5, anafzir.encode, (Y_L5, "+123456", "der")),
        (5, anafzir.decode, (Y_L5, b"\x03\x01\xE2\x40")), (6, anafzir.decode, (SIX_LISTS, b"\x04\x00\x01\xE2\x40")),
        (3, anafzir.DATE.encode, ("13.6.2006",)), (4, anafzir.DATE.encode_with_bits, ("2006-02-29",)),
        (4, anafzir.encode, (HMS_Z, "12:34:60Z", "der")), (4, anafzir.decode, (HMS_Z, b"\x64\x5E\x00")),
        (5, anafzir.decode, (anafzir.Type("DATE", highest=2005), b"\x05\x58")),
        (6, anafzir.DATE.decode_with_bits, (b"\x05\x58\x00",)),
    ):
        check_error(raised(getattr(anafzir, ERRORS[number - 1]), function, *words), *says[number])


class OwnType(anafzir.Type):
    """A type of a subclass."""

    __slots__ = ()


def check_types():
    """Equal and other types, as keys, as strs, copied, pickled; and that none changes."""
    date, end = partial(anafzir.Type, "DATE"), 2 ** 31 - 1
    ready = [anafzir.Type(text) for text in ("DATE", "TIME-OF-DAY", "DATE-TIME", "DURATION")]
    ones = ready + [anafzir.Type(text) for text in ("DATE\0", "DATE\0x", "", "\0", "\xe9", "\ud800")]
    ones += [date(**{name: year}) for name in ("lowest", "highest") for year in (0, -1, 2000, end - 1)]
    ones += [date(lowest=-end - 1), date(lowest=2000, highest=2010), date(lowest=2010, highest=2000), date(no_hour_24=True),
             date(lowest=0, highest=0, no_hour_24=True)]
    agree(len(set(ones)), len(ones), "types that differ")
    for k, one in enumerate(ones):
        copies = [pickle.loads(pickle.dumps(one, protocol)) for protocol in range(pickle.HIGHEST_PROTOCOL + 1)]
        for other in (*copies, copy.copy(one), copy.deepcopy(one), eval(repr(one), vars(anafzir)), as_bytes(one)):
            agree([each == other for each in ones], [k == place for place in range(len(ones))], "equal to", ascii(one))
            agree(hash(other), hash(one), "the hash of", ascii(one))
            agree(found(PER, other, "2006-06-13"), found(PER, one, "2006-06-13"), "a copy of", ascii(one))
    agree([date(highest=end), date(lowest=-end - 1, highest=end)], [date(lowest=-end - 1)] * 2, "open on both sides")
    agree([anafzir.DATE, anafzir.TIME_OF_DAY, anafzir.DATE_TIME, anafzir.DURATION], ready, "the ready types")
    agree((anafzir.DATE == "DATE", anafzir.DATE != "DATE"), (False, True), "a type beside a str")
    own = OwnType("DATE", highest=2006)
    agree((own.encode("2006-06-13"), type(copy.copy(own)), own), (b"\x05\x58", OwnType, date(highest=2006)), "a subclass")


def as_bytes(type_):
    """The same type, made of octets."""
    octets = type_.text.encode("utf-8", "surrogatepass")
    return anafzir.Type(octets, lowest=type_.lowest, highest=type_.highest, no_hour_24=type_.no_hour_24)


def check_constancy():
    """A type has what was given, and keeps it."""
    type_ = anafzir.Type("DATE", lowest=0, no_hour_24=1)
    before = ("DATE", 0, None, True)
    for name in ("text", "lowest", "highest", "no_hour_24", "other", *anafzir.Type.__slots__):
        raised(AttributeError, setattr, type_, name, 1)
        raised(AttributeError, delattr, type_, name)
    agree((type_.text, type_.lowest, type_.highest, type_.no_hour_24), before, "what a type has")
    agree(repr(type_), "Type('DATE', lowest=0, no_hour_24=True)", "a type as a str")
    agree(repr(anafzir.Type(b"\xff", highest=-1)), "Type(b'\\xff', highest=-1)", "a type as a str")


def check_hints(function):
    """Every parameter and the result of a public function have a type that can be read, and the function says what it does."""
    signature, hints = inspect.signature(function), typing.get_type_hints(function)
    names = {name for name in signature.parameters if name not in ("self", "cls")} | {"return"}
    agree(names - set(hints), set(), "without a type in", function)
    agree(bool(inspect.getdoc(function)), True, "the docstring of", function)


def check_source(source):
    """A source that Python 3.9 can read, annotations too, which have no `|` there."""
    nodes = list(ast.walk(ast.parse(source, feature_version=(3, 9))))
    annotations = [getattr(node, name, None) for node in nodes for name in ("annotation", "returns")]
    bars = [each for each in filter(None, annotations) if any(isinstance(part, ast.BitOr) for part in ast.walk(each))]
    agree([ast.unparse(each) for each in bars], [], "annotations with a bar")


def check_surface():
    """The names, the version, the hints and the examples of the module."""
    agree(set(anafzir.__all__), PUBLIC, "the public names")
    agree(len(anafzir.__all__), len(PUBLIC), "each public name once")
    agree(PUBLIC - set(vars(anafzir)), set(), "public names that are missing")
    agree(anafzir.__version__, (ROOT / "VERSION").read_text("utf-8").strip(), "the version")
    agree(anafzir.__version__, re.search(r'ANAFZIR_VERSION "(.*)"', HEADER).group(1), "the header's version")
    methods = [value for name, value in vars(anafzir.Type).items() if inspect.isfunction(value) and name[0] != "_"]
    agree([each.__name__ for each in methods], ["encode", "decode", "encode_with_bits", "decode_with_bits"], "the methods")
    for function in (anafzir.encode, anafzir.decode, anafzir.Type.__new__, *methods):
        check_hints(function)
    agree(set(typing.get_type_hints(anafzir.Type)) >= {"text", "lowest", "highest", "no_hour_24"}, True, "hints of a type")
    agree(set(typing.get_type_hints(anafzir.Refused)), {"number", "name", "sentence"}, "hints of an error")
    agree((FOLDER / "anafzir/py.typed").read_bytes(), b"", "py.typed")
    check_source((FOLDER / "anafzir/__init__.py").read_text("utf-8"))
    tried = doctest.testmod(anafzir)
    agree((tried.failed, tried.attempted > 3), (0, True), "the examples of the module")


ASK = "import anafzir; print(anafzir.encode('DATE', '2006-06-13').hex())"
ASK_OTHER = """import anafzir
try:
    anafzir.encode('DATE', 'other')
except Exception as error:
    print(type(error).__name__, error)
"""


def run(code, modules, library=None, loader=None):
    """A program of its own: the folder of its modules, ANAFZIR_LIBRARY, and where the loader looks first."""
    given = {"PYTHONPATH": modules, "ANAFZIR_LIBRARY": library, "LD_LIBRARY_PATH": loader, "PYTHONDONTWRITEBYTECODE": "1"}
    others = {name: value for name, value in os.environ.items() if name not in given}
    environment = {**others, **{name: str(value) for name, value in given.items() if value is not None}}
    words = [sys.executable, "-W", "error", "-bb", "-c", code]
    return subprocess.run(words, env=environment, cwd=LIBRARY.parent, capture_output=True, text=True)


def imports(*words, **names):
    """Ends the test where the module cannot be imported or gives other octets."""
    ran = run(ASK, *words, **names)
    agree((ran.stdout, ran.stderr), ("0558\n", ""), "imported with", words, names)


def refuses(*words, says, silent=(), **names):
    """Ends the test where importing the module does not end in an ImportError that says these words and not those."""
    ran = run(ASK, *words, **names)
    error = (ran.stderr.splitlines() or [""])[-1]
    agree((ran.stdout, error.partition(":")[0]), ("", "ImportError"), "imported with", words, names, ran.stderr)
    for word, expected in (*((word, True) for word in says), *((word, False) for word in silent)):
        agree(str(word) in error, expected, word, "is in", error)


# A library that answers what the module asks when it is imported, and gives one number for all the rest.
OTHER_LIBRARY = r"""
#include <string.h>
#include "anafzir.h"

static struct anafzir_outcome answer(struct anafzir_limits limits, const uint8_t *input, size_t input_length, uint8_t *room)
{
    struct anafzir_outcome done = {0, BITS, LENGTH}, limited = {LIMITED, 0, 0}, other = {OTHER, 0, 0};
    if (input_length != 10 || memcmp(input, "2006-06-13", 10) != 0)
        return other;
    if (limits.years != 0)
        return limited;
    memcpy(room, OCTETS, sizeof OCTETS - 1);
    return done;
}

#define CODER(name) struct anafzir_outcome name(const uint8_t *type, size_t type_length, struct anafzir_limits limits, \
    const uint8_t *input, size_t input_length, uint8_t *room, size_t room_length) \
{ (void)type; (void)type_length; (void)room_length; return answer(limits, input, input_length, room); }

CODER(anafzir_per_encode)
CODER(anafzir_per_decode)
CODER(anafzir_der_encode)
CODER(anafzir_der_decode)

const char *anafzir_message(uint32_t number) { (void)number; return SENTENCE; }
"""

ANSWERS = {"OCTETS": r'"\x05\x58"', "BITS": 15, "LENGTH": 2, "LIMITED": 5, "OTHER": 7, "SENTENCE": '"A sentence."'}


def compiled(folder, **changes):
    """A library whose answers or names are changed."""
    source, library = folder / "other.c", folder / ("_".join([*map(str, changes.keys()), *map(str, changes.values())]) + ".so")
    source.write_text(OTHER_LIBRARY, "ascii")
    flags = [f"-D{name}={value}" for name, value in {**ANSWERS, **changes}.items()]
    flags += ["-std=c99", "-Wall", "-Wextra", "-Werror", "-shared", "-fPIC", f"-I{ROOT / 'include'}"]
    subprocess.run(["cc", *flags, source, "-o", library], check=True)
    return library


def check_places(folder):
    """The library is looked for at ANAFZIR_LIBRARY, in the prefix that the module is in, and by the loader, in this order."""
    modules, real, broken = folder / "a prefix/lib/python3.9/site-packages", folder / "real", folder / "broken"
    shutil.copytree(FOLDER / "anafzir", modules / "anafzir")
    in_prefix = modules.parent.parent / NAME
    real.mkdir()
    broken.mkdir()
    shutil.copy(LIBRARY, real / NAME)
    (broken / NAME).write_bytes(b"no library\n" * 1000)
    refuses(modules, loader=broken, says=(in_prefix, f"; {NAME} ("))
    imports(modules, loader=real)
    shutil.copy(broken / NAME, in_prefix)
    imports(modules, loader=real)
    shutil.copy(LIBRARY, in_prefix)
    imports(modules, loader=broken)
    imports(modules, library="", loader=broken)
    imports(modules, library=f"./{LIBRARY.name}", loader=broken)
    for missing in (folder / "missing.so", folder, broken / NAME, "/dev/null"):
        refuses(modules, library=missing, loader=real, says=(missing,), silent=(in_prefix,))
    (folder / "link").symlink_to(modules)
    imports(folder / "link", loader=broken)
    shutil.copy(compiled(folder, BITS=16), in_prefix)
    refuses(modules, loader=real, says=(in_prefix,))
    shutil.copy(LIBRARY, folder / NAME)
    shutil.copytree(FOLDER / "anafzir", folder / "checkout/modules/anafzir")
    refuses(folder / "checkout/modules", loader=broken, says=(f"{NAME} (",), silent=(folder / NAME,))


def check_other_libraries(folder):
    """Libraries that lack a function, or answer otherwise, are refused; a number that no call has is an error of its own."""
    for function in ("per_encode", "per_decode", "der_encode", "der_decode", "message"):
        library = compiled(folder, **{f"anafzir_{function}": "other_name"})
        refuses(FOLDER, library=library, says=(library, f"anafzir_{function}"))
    for name, value in (("OCTETS", r'"\x05\x59"'), ("OCTETS", r'"\x05\x58\x01"'), ("BITS", 16), ("LENGTH", 3), ("LIMITED", 0),
                        ("SENTENCE", "0"), ("SENTENCE", '""')):
        library = compiled(folder, **{name: value})
        refuses(FOLDER, library=library, says=(library,))
    for number, says in ((7, "ShortRoom 7: A sentence.\n"), (8, "RuntimeError ")):
        ran = run(ASK_OTHER, FOLDER, library=compiled(folder, OTHER=number))
        agree((ran.stdout[:len(says)], str(number) in ran.stdout, ran.stderr), (says, True, ""), "after number", number)


def printed(type_text, text):
    """What the example prints of a text, by the reference."""
    yield text
    for name, there, back in ((b"PER", PER, UNPER), (b"DER", DER, UNDER)):
        number, octets, bits = wanted(Question(there, type_text, NO_LIMITS, text))
        if number != 0:
            yield b"  %s: refused, %d" % (name, number)
            continue
        yield b"  %s: %s%s" % (name, octets.hex().upper().encode(), b", %d bits" % bits if bits else b"")
        yield b"  canonical text from %s: %s" % (name, wanted(Question(back, type_text, NO_LIMITS, octets))[1])


def check_example():
    """What the example prints for some words, of which some are no UTF-8."""
    for words in (
        [], [b"DATE"], [b"", b""], [b"DATE|DATE", b"2006-06-13"], [b"DATE\xff", b"2006-06-13"], [b"DURATION", b"P0Y0M1D", b"P1Y6M"],
        [b"Basic=Time Time=HMSF3 Local-or-UTC=LD", b"15:27:46,500+01:00", b"24:00:01.000+00"], [b"DATE", b"\xff", b"", b"\xc3\xa9"],
        [HMS_LD, b"05:29:60+05:30", b"05:30:60+05:30", b"18:59:60-05"],
        [SIX_LISTS, b"-0044", b"+123456789", b"-999999999", b"+1234567890", b"2006"],
    ):
        type_text, *texts = words or [b"DURATION", b"P0Y0M1D"]
        environment = {**os.environ, "PYTHONPATH": str(FOLDER), "PYTHONUTF8": "1"}
        ran = subprocess.run([sys.executable, ROOT / "examples/coding.py", *words], env=environment, capture_output=True)
        agree(ran.stdout, b"".join(line + b"\n" for text in texts for line in printed(type_text, text)), words, ran.stderr)


def main():
    for check in (check_surface, check_errors, check_types, check_constancy, check_years, check_wrong_kinds, check_texts,
                  check_octets, check_longest, check_limits, check_example):
        check()
    for check in (check_places, check_other_libraries):
        with tempfile.TemporaryDirectory() as folder:
            check(Path(folder).resolve())
    answers = {question: wanted(question) for question in dict.fromkeys(questions())}
    check_lines(answers)
    check_threads(answers)


if __name__ == "__main__":
    main()
