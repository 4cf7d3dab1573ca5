"""What both players of random moves share: the program that is told lines, and the play of one seed after another."""
import argparse
import subprocess
import sys
from collections import Counter


class Difference(Exception):
    """Something that must hold doesn't."""


def expect(holds, text):
    if not holds:
        raise Difference(text)


class Program:
    """A program that answers each line by lines, up to one with a dot alone."""

    def __init__(self, command):
        self.process = subprocess.Popen(command, stdin=subprocess.PIPE, stdout=subprocess.PIPE, text=True)

    def tell(self, line):
        self.process.stdin.write(line + "\n")
        self.process.stdin.flush()
        lines = []
        for told in self.process.stdout:
            if told == ".\n":
                return lines
            lines.append(told.rstrip("\n"))
        raise Difference(f"the program ended at: {line}")


def play_seeds(program, player_of, world_of):
    """Plays the moves of each seed that the arguments ask for, and ends with status 1 at the first difference. `program` names the first one."""
    parser = argparse.ArgumentParser()
    parser.add_argument(program)
    parser.add_argument("--moves", type=int, default=120)
    parser.add_argument("--seeds", type=int, default=20)
    parser.add_argument("--first", type=int, default=1)
    options = parser.parse_args()
    player, done = player_of(getattr(options, program)), Counter()
    for seed in range(options.first, options.first + options.seeds):
        world = world_of(player, seed, seed % 2 == 0)
        try:
            for _ in range(options.moves):
                world.step()
                world.spot_check()
            world.end()
        except Difference as difference:
            print("\n".join(world.history))
            print(f"seed {seed}: {difference}")
            sys.exit(1)
        done += world.done
    print(f"seeds {options.first} to {options.first + options.seeds - 1}, {options.moves} moves each: no difference")
    print(", ".join(f"{name} {count}" for name, count in sorted(done.items())))
