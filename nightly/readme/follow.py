#!/usr/bin/env python3
"""follow.py FOLDER    follows "A service" of the README in FOLDER/clone, a fresh clone: saves each listing under the
                    path that the text before it names, and runs each line. Each line is printed with what it said and how long it took."""
import pathlib
import re
import socket
import subprocess
import sys
import time

TOP = pathlib.Path(__file__).resolve().parent.parent.parent
PORT = 7001
WANTED = ["blue\n", "results Store.get (value = \"blue\")\n"]


def steps_of(text):
    """The listings, each with its path, and the lines to run, in order."""
    story = re.search(r"\n## A service\n(.*?)\n## ", text, re.S)[1]
    path = None
    for step in re.finditer(r"^```\w+ [^\n]*\n(.*?)^```|^    ([^\n]*)|\bas\s+`([^`]+)`", story, re.S | re.M):
        listing, line, name = step.groups()
        if name:
            path = name
        elif listing is not None:
            yield path, listing
        else:
            yield None, line


def listens():
    with socket.socket() as it:
        return it.connect_ex(("127.0.0.1", PORT)) == 0


def begin(line, clone):
    """Runs a line's first command, which goes on behind the next ones, until its program listens."""
    server = subprocess.Popen(["bash", "-c", f"exec {line.partition(' &')[0]}"], cwd=clone)
    while server.poll() is None and not listens():
        time.sleep(1)
    return server


def follow(clone):
    """Pastes each step, and gives what the lines said."""
    said, server = "", None
    try:
        for path, text in steps_of((clone / "README.md").read_text()):
            began = time.time()
            if path:
                (clone / path).parent.mkdir(parents=True, exist_ok=True)
                (clone / path).write_text(text)
                print(f"{time.strftime('%T')} saved {path}", flush=True)
                continue
            print(f"{time.strftime('%T')} $ {text}", flush=True)
            if " &" in text:
                server = begin(text, clone)
            elif text.startswith("kill "):
                continue
            else:
                ran = subprocess.run(["bash", "-c", text], cwd=clone, stdout=subprocess.PIPE, text=True)
                said += ran.stdout
                print(f"{ran.stdout}(status {ran.returncode}, {time.time() - began:.0f} s)", flush=True)
    finally:
        if server:
            server.terminate()
            server.wait()
    return said


def main():
    clone = pathlib.Path(sys.argv[1]) / "clone"
    if not clone.exists():
        subprocess.run(["git", "clone", "-q", TOP, clone], check=True)
    began = time.time()
    said = follow(clone)
    print(f"from the schema to the service in {(time.time() - began) / 60:.1f} minutes")
    at = 0
    for wanted in WANTED:
        at = said.find(wanted, at)
        if at < 0:
            sys.exit(f"no line said {wanted!r}")


if __name__ == "__main__":
    main()
