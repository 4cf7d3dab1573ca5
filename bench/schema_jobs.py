#!/usr/bin/env python3
"""Times `capnp_cli show` and `encode` by a schema, in texts and in JSON, and `canonical` beside `capnp convert`, on address books, and
`show` of one small message beside `capnp decode`. Prints the ratios of their times.

    schema_jobs.py --data FOLDER [--command PROGRAM] [--megabytes 100] [--runs 5] [--cpu 1] [--enforce] [--history FILE]

FOLDER gets the messages, their texts and their JSON. The programs run in turn; what `show` and `canonical` write is compared. Times are
processor seconds, of user and system together. A ratio is ours over the reference's. With --enforce the status is 1 where a ratio
passes its goal, or where what is written differs. With --history each ratio is appended to FILE.
"""
import argparse
import os
import pathlib
import statistics
import subprocess
import sys

import history

ROOT = pathlib.Path(__file__).resolve().parent.parent
SCHEMA = ROOT / "crates/addressbook/addressbook.capnp"
TYPE = "AddressBook"
PEOPLE = 1000  # of a message
STARTS = 200  # of a program, in a row of `start`


def person(number):
    """A person as a text of the schema language."""
    phones = ", ".join(f'(number = "+49 30 {number:06} {k}", type = {kind})' for k, kind in enumerate(("mobile", "home", "work")[: number % 4]))
    work = ("unemployed = void", f'employer = "Employer {number % 97}"', f'school = "School \\"{number % 13}\\""', "selfEmployed = void")[number % 4]
    return (
        f'(id = {number}, name = "Person {number}", email = "person{number}@example.org", phones = [{phones}], employment = ({work}), '
        f"age = {number % 100}, height = {number % 41 - 20}, active = {'true' if number % 3 else 'false'}, "
        f"scores = [{', '.join(str(number * k) for k in range(number % 6))}])"
    )


def make(data, megabytes):
    """The messages, some MB of them, and the file of their schema."""
    text = f"(people = [{', '.join(map(person, range(PEOPLE)))}])"
    one = subprocess.run(["capnp", "encode", SCHEMA, TYPE], input=text.encode(), stdout=subprocess.PIPE, check=True).stdout
    request = subprocess.run(["capnp", "compile", "-o-", SCHEMA.name], cwd=SCHEMA.parent, stdout=subprocess.PIPE, check=True).stdout
    (data / "people.request").write_bytes(request)
    count = megabytes * 1_000_000 // len(one) + 1
    with open(data / "people.bin", "wb") as out:
        for _ in range(count):
            out.write(one)
    small = subprocess.run(["capnp", "encode", SCHEMA, TYPE], input=b"()", stdout=subprocess.PIPE, check=True).stdout
    (data / "small.bin").write_bytes(small)
    return count


def jobs_in(data, command):
    """Each job: its goal, both programs, what they read and write, whether both write the same, and how often they are started."""
    named = ["--schema", data / "people.request", "--type", TYPE]
    convert = ["capnp", "convert", "--quiet", "--short"]
    of_type = [SCHEMA, TYPE]
    people = {form: data / f"people.{form}" for form in ("bin", "text", "json", "flat", "text.bin", "json.bin")}
    small, said = data / "small.bin", data / "small.text"
    return {
        "show --schema": (0.3, [command, "show", *named, "-"], [*convert, "binary:text", *of_type], people["bin"], people["text"], True, 1),
        "encode --schema": (0.3, [command, "encode", *named, "-"], [*convert, "text:binary", *of_type], people["text"], people["text.bin"], False, 1),
        "show --json": (0.3, [command, "show", *named, "--json", "-"], [*convert, "binary:json", *of_type], people["bin"], people["json"], True, 1),
        "encode --json": (0.3, [command, "encode", *named, "--json", "-"], [*convert, "json:binary", *of_type], people["json"], people["json.bin"], False, 1),
        "canonical": (0.3, [command, "canonical", "--flat", "-"], [*convert, "binary:canonical"], people["bin"], people["flat"], True, 1),
        "start": (0.5, [command, "show", *named, "-"], ["capnp", "decode", "--short", *of_type], small, said, True, STARTS),
    }


def run_often(times, words, source, to, cpu):
    """Processor seconds of a program over a file, that is started so often."""
    return sum(run(words, source, to, cpu) for _ in range(times))


def run(words, source, to, cpu):
    """Processor seconds of a program over a file."""
    with open(source, "rb") as file, open(to, "wb") as out:
        child = subprocess.Popen(["taskset", "-c", cpu, *map(str, words)], stdin=file, stdout=out)
        _, status, use = os.wait4(child.pid, 0)
    child.returncode = os.waitstatus_to_exitcode(status)
    if child.returncode:
        sys.exit(f"{' '.join(map(str, words))}: status {child.returncode}")
    return use.ru_utime + use.ru_stime


def same(left, right):
    return subprocess.run(["cmp", "-s", left, right]).returncode == 0


def main():
    words = argparse.ArgumentParser(description=__doc__, formatter_class=argparse.RawDescriptionHelpFormatter)
    words.add_argument("--data", type=pathlib.Path, required=True)
    words.add_argument("--command", default=ROOT / "crates/cp_cli/out/cp_cli")
    words.add_argument("--megabytes", type=int, default=100)
    words.add_argument("--runs", type=int, default=5)
    words.add_argument("--cpu", default="1")
    words.add_argument("--enforce", action="store_true")
    words.add_argument("--history", type=pathlib.Path)
    args = words.parse_args()
    data = args.data
    data.mkdir(parents=True, exist_ok=True)
    load = os.getloadavg()[0]
    count = make(data, args.megabytes)
    print(f"{count} messages of {PEOPLE} people; {args.runs} runs of each, in turn; load {load:.1f}")
    rows, failed = [], False
    for job, (goal, ours, theirs, source, to, is_compared, starts) in jobs_in(data, args.command).items():
        files = [to, to.with_name(f"{to.name}.theirs")]
        times = [[run_often(starts, it, source, file, args.cpu) for it, file in zip((ours, theirs), files)] for _ in range(args.runs)]
        mine, other = (statistics.median(it) for it in zip(*times))
        spread = " ".join(f"{statistics.median(it) / min(it):.2f}" for it in zip(*times))
        ratio, is_same = mine / other, not is_compared or same(*files)
        note = "" if is_same and ratio <= goal else "over" if is_same else "OTHER OUTPUT"
        failed |= bool(note)
        print(f"{job:<16}{1e3 * mine / starts:>9.1f} ms{1e3 * other / starts:>9.1f} ms{ratio:>8.2f}{goal:>7.2f}   {spread}  {note}", flush=True)
        rows.append((job, "people", f"{ratio:.2f}", "ratio"))
    if args.history:
        history.keep(args.history, "schema_jobs.py", rows, f"load {load:.1f} at first, medians of {args.runs} runs, {args.megabytes} MB")
    return 1 if args.enforce and failed else 0


if __name__ == "__main__":
    sys.exit(main())
