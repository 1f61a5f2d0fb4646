"""Codes each text given under a type: its octets in PER and in DER, and the texts that these octets give again. Without any
words it codes a duration, whose canonical text is another: P1D. It prints what coding.c prints."""

import sys

import anafzir


def code(type_: anafzir.Type, text: str) -> None:
    print(text)
    try:
        per, bits = type_.encode_with_bits(text)
        print(f"  PER: {per.hex().upper()}, {bits} bits")
        print(f"  canonical text from PER: {type_.decode(per)}")
    except anafzir.Refused as refused:
        print(f"  PER: refused, {refused.number}")
    try:
        der = type_.encode(text, "der")
        print(f"  DER: {der.hex().upper()}")
        print(f"  canonical text from DER: {type_.decode(der, 'der')}")
    except anafzir.Refused as refused:
        print(f"  DER: refused, {refused.number}")


def main() -> None:
    # A text of any octets is printed as it was given.
    sys.stdout.reconfigure(errors="surrogateescape")
    words = sys.argv[1:]
    if not words:
        code(anafzir.DURATION, "P0Y0M1D")
    for text in words[1:]:
        code(anafzir.Type(words[0]), text)


if __name__ == "__main__":
    main()
