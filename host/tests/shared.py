"""shared.py LIBRARY: the calls of a shared libmfp, by ctypes.

Reads a tape from standard input, runs it on a fresh device and prints what the
replay program prints of it.
"""

import ctypes
import sys

IMAGE_BYTES, RECORD_BYTES, ANSWER_BYTES = 32, 8, 22
FRESH = b"\x4d\x31" + bytes(30)
ROOM_BESIDE = 5

library = ctypes.CDLL(sys.argv[1])
for call, lent in [(library.mfp_run, 3), (library.mfp_fresh, 1)]:
    call.argtypes = [ctypes.c_char_p, ctypes.c_size_t] * lent
    call.restype = ctypes.c_uint32
library.mfp_row_acknowledge.argtypes = [ctypes.c_char_p, ctypes.c_size_t]
library.mfp_row_acknowledge.restype = ctypes.c_uint64


def line(index, answer):
    """An answer as the replay program prints it."""
    assert answer[:2] == b"\x4d\x41"
    value = f"{answer[3]:02X}" if answer[2] in (1, 2) else "--"
    outputs = "".join(str(answer[5] >> timer & 1) for timer in range(4))
    counts = [int.from_bytes(answer[at : at + 4], "big") for at in range(6, 22, 4)]
    return " ".join(map(str, [index, "DRVPH"[answer[2]], value, answer[4], outputs, *counts]))


def main():
    image = ctypes.create_string_buffer(b"\xa5" * IMAGE_BYTES, IMAGE_BYTES)
    assert library.mfp_fresh(image, IMAGE_BYTES - 1) == 1
    assert image.raw == b"\xa5" * IMAGE_BYTES
    assert library.mfp_fresh(image, IMAGE_BYTES) == 0
    assert image.raw == FRESH
    assert library.mfp_row_acknowledge(image, IMAGE_BYTES - 1) == 1
    assert library.mfp_row_acknowledge(image, IMAGE_BYTES) == 0x100 << 32
    assert image.raw == FRESH

    tape = sys.stdin.buffer.read()
    written = len(tape) // RECORD_BYTES * ANSWER_BYTES
    before = b"\xa5" * (written + ROOM_BESIDE)
    answers = ctypes.create_string_buffer(before, len(before))
    code = library.mfp_run(image, IMAGE_BYTES, tape, len(tape), answers, len(before))
    if code != 0:
        assert image.raw == FRESH and answers.raw == before
        print("refused", code % 256, code // 256)
        return
    assert image.raw[:2] == FRESH[:2] and answers.raw[written:] == before[written:]
    for at in range(0, written, ANSWER_BYTES):
        print(line(at // ANSWER_BYTES, answers.raw[at : at + ANSWER_BYTES]))


main()
