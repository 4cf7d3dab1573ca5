#!/usr/bin/env python3
"""client.py PORT INTERFACE METHOD TEXT..    calls a method of the bootstrap object of 127.0.0.1, whose params are a struct of these texts,
and prints the texts of its results."""
import ctypes as c
import socket
import struct
import sys
import jamdrosek as jd

PIPELINED, SETTLED, CLOSING = 4, 2, 3


def texts(*values):
    """The plain frame of a struct of these texts."""
    blocks = [value.encode() + b"\0" for value in values]
    offset, pointers, bodies = len(blocks) - 1, [], b""
    for block in blocks:
        pointers.append(struct.pack("<II", (offset + len(bodies) // 8) << 2 | 1, len(block) << 3 | 2))
        bodies += block + bytes(-len(block) % 8)
        offset -= 1
    words = struct.pack("<IHH", 0, 0, len(blocks)) + b"".join(pointers) + bodies
    return struct.pack("<II", 0, len(words) // 8) + words


def texts_in(frame):
    """The texts of a plain frame's struct, of one segment, as this library writes it."""
    _, words, pointers = struct.unpack_from("<IHH", frame, 8)
    for place in range(16 + 8 * words, 16 + 8 * (words + pointers), 8):
        first, count = struct.unpack_from("<iI", frame, place)
        start = place + 8 + 8 * (first >> 2)
        yield frame[start:start + (count >> 3) - 1].decode() if count else ""


def right(code):
    if code:
        sys.exit(f"refused: {jd.text(code)}")


def flush():
    lent = jd.Bytes()
    right(jd.connection_outgoing(connection, lent))
    peer.sendall(c.string_at(lent.at, lent.len))
    right(jd.connection_wrote(connection, lent.len))


port, interface, method, *values = sys.argv[1:]
peer = socket.create_connection(("127.0.0.1", int(port)))
connection, event, lent, store, question, taken = jd.Connection(), jd.Event(), jd.Bytes(), c.c_uint32(), c.c_uint32(), c.c_size_t()
right(jd.connection_open(connection, False, jd.STANDARD, False, 0))
right(jd.connection_bootstrap(connection, store))
# The call goes out before the object is known.
target, params = jd.Cap(PIPELINED, store.value), texts(*values)
right(jd.connection_call(connection, target, jd.Method(int(interface, 0), int(method)), params, len(params), jd.Cap(), 0, question))
flush()
while piece := peer.recv(65536):
    while piece:
        right(jd.connection_receive(connection, piece, len(piece), taken))
        piece = piece[taken.value:]
        while not jd.connection_next(connection, event) and event.kind:
            if event.kind == CLOSING or event.kind == SETTLED and event.outcome:
                jd.connection_reason(connection, lent)
                sys.exit(c.string_at(lent.at, lent.len).decode())
            if event.kind == SETTLED and event.question == question.value:
                right(jd.connection_content(connection, lent))
                print("\n".join(texts_in(c.string_at(lent.at, lent.len))))
                right(jd.connection_finish(connection, question.value))
                right(jd.connection_finish(connection, store.value))
                flush()
                jd.connection_close(connection)
                sys.exit()
sys.exit("the peer ended")
