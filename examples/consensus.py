"""The library from Python, by ctypes: `python3 consensus.py FILE` prints each column's call and expected errors, an example with
UMI strings, and the listing of a file that it writes by parts.

CONSENSUS_LIBRARY names the shared library; without it the linker's search path is asked."""

import ctypes
import os
import struct
import sys

library = ctypes.CDLL(os.environ.get("CONSENSUS_LIBRARY", "libconsensus.so"))
for name in ("records", "error_sums", "umi", "list", "writer", "write_settings", "write_column", "write_strings", "write_finish", "written"):
    getattr(library, "consensus_" + name).restype = ctypes.c_uint64


class Refused(ValueError):
    """A file or a string set is refused by a numbered condition."""


def given(reply):
    if reply < 256:
        raise Refused(f"refused by condition {reply}")
    return reply - 256


def records(file):
    """Of each column: base, quality, depth (the sum of the counts), counts of A, C, G and T, ignored bytes."""
    out = ctypes.create_string_buffer(28 * 32768)
    length = given(library.consensus_records(file, ctypes.c_size_t(len(file)), out, ctypes.c_size_t(len(out))))
    return [(chr(base), quality, *counts) for base, quality, *counts in struct.iter_unpack("<BBxx6I", out.raw[:length])]


def error_sums(file):
    """Of each column: the sum of its qualities' error probabilities, in units of 2^-48, each rounded down."""
    out = ctypes.create_string_buffer(700_000)
    length = library.consensus_error_sums(file, ctypes.c_size_t(len(file)), out, ctypes.c_size_t(len(out)))
    text = out.raw[:length].decode()
    if text.startswith("refused"):
        raise Refused(text.strip())
    return [int(line) for line in text.splitlines()]


def umi(strings):
    """The consensus of UMI strings, and whether one of them differs from it."""
    data = bytes([len(strings)]) + b"".join(bytes([len(s)]) + s for s in strings)
    out = ctypes.create_string_buffer(255)
    code = given(
        library.consensus_umi(ctypes.c_uint8(1), data, ctypes.c_size_t(len(data)), out, ctypes.c_size_t(len(out)))
    )
    return out.raw[: code >> 2], bool(code & 1)


def listing(file):
    """The listing as text, `refused N` for a file that is refused."""
    out = ctypes.create_string_buffer(2_400_000)
    length = library.consensus_list(file, ctypes.c_size_t(len(file)), out, ctypes.c_size_t(len(out)))
    return out.raw[:length].decode("latin-1")


def column_file(settings, columns, strings):
    """A column file, written by its parts: settings (pre rate, post rate, tie rule), columns of (base, quality), UMI strings."""
    buffer = ctypes.create_string_buffer(65_536)

    def step(name, writer, part):
        write = getattr(library, "consensus_write_" + name)
        reply = write(ctypes.c_uint64(writer), part, ctypes.c_size_t(len(part)), buffer, ctypes.c_size_t(len(buffer)))
        return given(reply) + 256

    writer = library.consensus_writer()
    writer = step("settings", writer, bytes([len(settings), *settings]) + struct.pack("<H", len(columns)))
    for column in columns:
        observations = b"".join(base + bytes([quality]) for base, quality in column)
        writer = step("column", writer, struct.pack("<H", len(column)) + observations)
    writer = step("strings", writer, bytes([len(strings)]) + b"".join(bytes([len(s)]) + s for s in strings))
    writer = given(library.consensus_write_finish(ctypes.c_uint64(writer))) + 256
    return buffer.raw[: library.consensus_written(ctypes.c_uint64(writer))]


if __name__ == "__main__":
    with open(sys.argv[1], "rb") as file:
        data = file.read()
    for number, (record, errors) in enumerate(zip(records(data), error_sums(data)), 1):
        print(number, *record, f"{errors / 2**48:.9f}")
    print("umi", *umi([b"ACGT", b"ACGT", b"ACGA"]))
    written = column_file((45, 40, 0), [[(b"A", 30), (b"a", 30), (b"N", 2)], []], [b"ACGT"])
    print(len(written), "bytes written, listed as")
    print(listing(written), end="")
    try:
        column_file((45, 40, 0), [[(b"A", 255)]], [])
    except Refused as refusal:
        print(refusal)
