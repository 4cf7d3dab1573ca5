#!/usr/bin/env python3
"""stream.py [--packed] [--messages]    reads a stream from standard input, and says what each frame is, or what the first fault is."""
import sys
import jamdrosek as jd

packed, messages = "--packed" in sys.argv, "--messages" in sys.argv
reader, step, spot, message, lent = jd.Reader(), jd.Step(), jd.Spot(), jd.Message(), jd.Bytes()


def stop(at, code, spot=jd.Spot()):
    sys.exit(f"refused at byte {at}: {jd.text(code, spot)}")


if code := jd.reader_open(reader, packed, jd.STANDARD):
    stop(0, code)
at = taken = 0
while piece := sys.stdin.buffer.read(65536):
    while piece:
        if code := jd.reader_next(reader, piece, len(piece), step):
            stop(at, code)
        piece, taken = piece[step.taken:], taken + step.taken
        if not step.has_frame:
            continue
        if code := jd.reader_message(reader, message, spot) if messages else jd.reader_check(reader, spot):
            stop(at, code, spot)
        if code := jd.reader_write(reader, False, lent):
            stop(at, code)
        told = f" kind {message.kind} id {message.id}" if messages else ""
        print(f"byte {at}: {lent.len} bytes plain{told}")
        at = taken
if code := jd.reader_end(reader):
    stop(at, code)
jd.reader_close(reader)
