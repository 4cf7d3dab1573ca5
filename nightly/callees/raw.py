#!/usr/bin/env python3
"""raw.py PORT STEP..    a peer that does these steps over one connection, and then closes it.
  read          takes what comes next, and what follows it within a fifth of a second
  send FILE     sends a file's bytes
  half FILE     sends the first half of them
  drip FILE     sends them one by one
  pause         waits a fifth of a second
  until         takes all that comes, until the client is gone
  reset         lets the connection be reset as it closes"""
import socket
import struct
import sys
import time


def bytes_of(path):
    with open(path, "rb") as file:
        return file.read()


def read(stream):
    stream.recv(65536)
    stream.settimeout(0.2)
    try:
        while stream.recv(65536):
            pass
    except TimeoutError:
        pass
    stream.settimeout(None)


def main(port, steps):
    listener = socket.socket()
    listener.setsockopt(socket.SOL_SOCKET, socket.SO_REUSEADDR, 1)
    listener.bind(("127.0.0.1", int(port)))
    listener.listen(1)
    stream, _ = listener.accept()
    listener.close()
    stream.setsockopt(socket.IPPROTO_TCP, socket.TCP_NODELAY, 1)
    for step in steps:
        if step == "read":
            read(stream)
        elif step == "send":
            stream.sendall(bytes_of(next(steps)))
        elif step == "half":
            whole = bytes_of(next(steps))
            stream.sendall(whole[: len(whole) // 2])
        elif step == "drip":
            for byte in bytes_of(next(steps)):
                stream.sendall(bytes([byte]))
        elif step == "pause":
            time.sleep(0.2)
        elif step == "until":
            while stream.recv(65536):
                pass
        elif step == "reset":
            stream.setsockopt(socket.SOL_SOCKET, socket.SO_LINGER, struct.pack("ii", 1, 0))
        else:
            sys.exit("no step " + step)
    stream.close()


main(sys.argv[1], iter(sys.argv[2:]))
