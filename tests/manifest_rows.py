#!/usr/bin/env python3
"""Writes what crates/s3r_manifest_rows has to print, by Python's own readers of CSV and of percent-encoding:

    tests/manifest_rows.py <crates/s3r_manifest_rows/stdin >crates/s3r_manifest_rows/stdout

So the expected text comes from outside. A difference to what stands there is one between two readers of CSV, or an error.
"""

import csv
import io
import re
import sys
from urllib.parse import unquote_to_bytes

MOST_BYTES = 4_194_304
MOST_RECORDS = 20_000
MARK = b"\xef\xbb\xbf"


class Refused(Exception):
    """What is printed for a manifest that is refused."""


def bad(number, kind):
    return Refused(f"BadLine({number}, {kind}): record {number} is wrong")


def text_of(parts):
    """The bytes that a row's parts stand for."""
    text = b""
    for part in parts.split(" | "):
        times, unit = part.split(" * ", 1) if " * " in part else ("1", part)
        text += int(times) * unquote_to_bytes(unit.strip())
    return text


def records(text):
    """The records of a text without a header row, each a list of bytes. Python gives an empty list for an empty line."""
    csv.field_size_limit(2 * MOST_BYTES)
    lines = io.StringIO(text.removeprefix(MARK).decode("latin-1"), newline="")
    for row in csv.reader(lines):
        if row:
            yield [field.encode("latin-1") for field in row]


def is_bucket(name):
    if not re.fullmatch(rb"[a-z0-9][a-z0-9.-]{1,61}[a-z0-9]", name):
        return False
    if b".." in name or name == b"v20180820":
        return False
    return not re.fullmatch(rb"[0-9]{1,3}(\.[0-9]{1,3}){3}", name)


def is_key(key):
    try:
        key.decode("utf-8")
    except UnicodeDecodeError:
        return False
    return 1 <= len(key) <= 1024


def version_of(field):
    """The version's text in decimal digits, or nothing where the field is no version's id."""
    if not re.fullmatch(rb"[0-7]-[0-9a-f]{16}", field) or int(field[2:], 16) == 0:
        return None
    return f"{field[:1].decode()}-{int(field[2:], 16)}"


def escaped(key):
    """A key with all but letters and digits percent-encoded."""
    return "".join(chr(byte) if chr(byte).isascii() and chr(byte).isalnum() else f"%{byte:02X}" for byte in key)


def line_of(number, versions, fields):
    if len(fields) != (3 if versions else 2):
        raise bad(number, "Fields")
    if not is_bucket(fields[0]):
        raise bad(number, "Bucket")
    key = unquote_to_bytes(fields[1])
    if not is_key(key):
        raise bad(number, "Key")
    version = "latest"
    if versions and fields[2]:
        version = version_of(fields[2])
    if version is None:
        raise bad(number, "Version")
    return f"{fields[0].decode()} {escaped(key)} {version}"


def lines_of(versions, text):
    if len(text) > MOST_BYTES:
        raise Refused(f"ManifestTooLong: the manifest is longer than {MOST_BYTES} bytes")
    rows = list(records(text))
    lines = [line_of(number, versions, fields) for number, fields in enumerate(rows[:MOST_RECORDS], 1)]
    if len(rows) > MOST_RECORDS:
        raise Refused(f"TooManyLines: the manifest has more than {MOST_RECORDS} records")
    return lines


def told(word, rest):
    if word == "many":
        times, rest = rest.split(" ", 1)
        return f"lines in all: {int(times) * len(lines_of(False, text_of(rest)))}"
    if word not in ("lines", "versions", "count"):
        return "no such word"
    lines = lines_of(word == "versions", text_of(rest))
    if word == "count":
        return f"lines: {len(lines)}"
    return " | ".join([f"lines: {len(lines)}", *lines])


def main():
    for line in sys.stdin:
        row = line.rstrip("\n")
        if not row or row.startswith("#"):
            continue
        word, _, rest = row.partition(" ")
        try:
            print(told(word, rest))
        except Refused as refusal:
            print(refusal)


if __name__ == "__main__":
    main()
