"""Test lines on values, on rows and on codings, and the replies that document 01 settles.

`lines.py values lines` writes the lines of value_lines.py on texts, `lines.py values replies` reads such lines and writes
a reply for each; `rows` in place of `values` stands for its lines on two types, and `codings` for coding_lines.py. A line
ends in a newline, and the last one need not.
"""

import sys

import coding_lines
import value_lines

# the lines, and the reply to one
SUBJECTS = {
    "values": (value_lines.text_lines, value_lines.reply),
    "rows": (value_lines.row_lines, value_lines.reply),
    "codings": (coding_lines.all_lines, coding_lines.reply),
}


def split_lines(octets):
    """The lines; one without a newline at its end still counts."""
    lines = octets.split(b"\n")
    return lines[:-1] if lines[-1] == b"" else lines


def main():
    """Writes the lines, or the replies to lines from standard input."""
    subject = SUBJECTS.get(sys.argv[1]) if len(sys.argv) == 3 else None
    if not subject or sys.argv[2] not in ("lines", "replies"):
        sys.exit("usage: lines.py values|rows|codings lines|replies")
    all_lines, reply = subject
    if sys.argv[2] == "lines":
        sys.stdout.buffer.write(b"\n".join(all_lines()))
        return
    for question in split_lines(sys.stdin.buffer.read()):
        sys.stdout.buffer.write(reply(question) + b"\n")


if __name__ == "__main__":
    main()
