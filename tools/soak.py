#!/usr/bin/env python3
"""Runs the program over real folders, kills it by SIGKILL at random moments, and checks what is left by a plain reader.

After each kill every choice of the directories that has one of the run has to open to the namespace after the commands that were
answered, or to that after one more; the next start has to open to the same. In half of the runs what stands behind the last
answered record of a segment in progress is cut or spoiled first, as a power loss may leave bytes that weren't synced.

Usage: soak.py PROGRAM [--runs N] [--seed S] [--dirs D] [--place FOLDER]
"""
import argparse
import itertools
import os
import random
import shutil
import subprocess
import sys
import tempfile
import time

import model
import reader


class Lost(Exception):
    """What the program promised and didn't keep."""


class Soak:
    def __init__(self, program, seed, count, place):
        self.program = os.path.abspath(program)
        self.random = random.Random(seed)
        self.place = place
        self.directories = [os.path.join(place, f"d{number}") for number in range(count)]
        self.book = model.Model()
        self.last = 0
        self.seconds = 0.3
        self.kills = self.answered = self.choices = self.before = self.spoiled = 0

    def format(self):
        for directory in self.directories:
            os.mkdir(directory)
        words = ["format", "--cluster", "c1", "--namespace", "7", *self.directories]
        said = subprocess.run([self.program, *words], capture_output=True, text=True)
        if said.stdout != f"formatted {len(self.directories)}\n":
            raise Lost(f"format said {said.stdout!r}")

    def script(self):
        """Random lines with what the model answers, and the book after each."""
        book = self.book.copy()
        book.now = 0
        books, lines, answers = [book.copy()], [], []
        for _ in range(self.random.randrange(1, 120)):
            line = model.random_line(self.random, book) if self.random.random() > 0.03 else self.random.choice(["roll", "checkpoint", "restore 0"])
            lines.append(line)
            answers.append(book.answer(line))
            books.append(book.copy())
        return lines, answers, books

    def of_run(self):
        """The directories of the next run: mostly all, sometimes fewer, sometimes one of them emptied."""
        chosen = list(self.directories)
        if len(chosen) > 1 and self.random.random() < 0.25:
            # One that holds all that was answered has to be among them.
            holders = [it for it in chosen if self.rank(it) == self.last]
            keep = self.random.choice(holders)
            chosen = [it for it in chosen if it == keep or self.random.random() < 0.5]
        if len(chosen) > 1 and self.random.random() < 0.1:
            others = [it for it in chosen if any(self.rank(more) == self.last for more in chosen if more != it)]
            if others:
                shutil.rmtree(os.path.join(self.random.choice(others), "current"), ignore_errors=True)
        return chosen

    def rank(self, directory):
        folder = reader.serving(directory)
        return -1 if folder is None else reader.Chain(folder).last

    def run(self, lines, directories):
        """Runs the lines, kills the program at a random moment, and gives what it said by then."""
        with open(os.path.join(self.place, "script"), "w") as script:
            script.write("".join(line + "\n" for line in lines))
        with open(os.path.join(self.place, "script"), "rb") as script, open(os.path.join(self.place, "said"), "wb") as said:
            begun = time.monotonic()
            child = subprocess.Popen([self.program, "run", *directories], stdin=script, stdout=said)
            try:
                child.wait(self.random.uniform(0, 1.2 * self.seconds))
                self.seconds = 0.9 * self.seconds + 0.1 * (time.monotonic() - begun)
            except subprocess.TimeoutExpired:
                child.kill()
                child.wait()
                self.kills += 1
                self.seconds = min(1.05 * self.seconds, 5)
        if child.returncode not in (0, -9):
            raise Lost(f"it ended by {child.returncode}")
        with open(os.path.join(self.place, "said"), "rb") as said:
            text = said.read().decode()
        return text.split("\n")[:-1], child.returncode == 0

    def spoil(self, directory, last):
        """Cuts or spoils what stands behind the record of this id in the segment in progress."""
        folder = os.path.join(directory, "current")
        for first, end, name in list(reader.segments_of(folder)):
            if end is not None or first > last:
                continue
            path = os.path.join(folder, name)
            data = reader.contents(path)
            places = [place for number, _, _, place in reader.records_of(data, first) if number <= last]
            certain = places[-1] if places else len(data)
            if certain == len(data):
                continue
            tail = bytearray(data[certain : self.random.randrange(certain, len(data) + 1)])
            if tail and self.random.random() < 0.5:
                tail[self.random.randrange(len(tail))] ^= 1 << self.random.randrange(8)
            with open(path, "r+b") as file:
                file.truncate(certain)
                file.seek(certain)
                file.write(tail)
            self.spoiled += 1

    def check(self, directories, books):
        """Each choice with a directory of the run opens to one of the books. Gives the place of that to which all open."""
        for size in range(1, len(self.directories) + 1):
            for choice in itertools.combinations(self.directories, size):
                if not set(choice) & set(directories):
                    continue
                try:
                    chain = reader.opened(choice)
                except reader.Unreadable as why:
                    raise Lost(f"{choice} don't open: {why}") from why
                at = next((at for at, book in enumerate(books) if chain.namespace == book.space), None)
                if at is None:
                    raise Lost(f"{choice} open to another namespace, with the last id {chain.last}")
                self.choices += 1
                if choice == tuple(self.directories):
                    self.last = chain.last
                    opened = at
        return opened

    def turn(self):
        lines, answers, books = self.script()
        directories = self.of_run()
        # Until the start is answered only those that it chooses hold what the run promises.
        chosen = [it for it in directories if self.rank(it) == self.last]
        said, ended = self.run(lines, directories)
        if said and said[0] != f"started {self.last}":
            raise Lost(f"it said {said[0]!r}, and the last id was {self.last}")
        if ended and said[-1:] != ["stopped"]:
            raise Lost(f"it ended with {said[-1:]}")
        given = said[1:-1] if ended else said[1:]
        if given != answers[: len(given)] or (ended and len(given) != len(answers)):
            raise Lost("an answer isn't the model's")
        self.before += not said
        self.answered += len(given)
        window = books[len(given) : len(given) + 2]
        if said and not ended and self.random.random() < 0.5:
            self.spoil_all(directories, window[0])
        self.book = window[self.check(directories if said else chosen, window)]

    def spoil_all(self, directories, answered):
        """The ids that were answered end where the chain has the answered namespace."""
        for directory in directories:
            folder = reader.serving(directory)
            chain = reader.Chain(folder)
            last = chain.last if chain.namespace == answered.space else chain.last - 1
            if self.random.random() < 0.7:
                self.spoil(directory, last)

    def last_run(self):
        """A run to its end, whose listing is the book's."""
        said = subprocess.run([self.program, "run", *self.directories], input="list /\n", capture_output=True, text=True)
        lines = list(self.book.space.lines())
        wanted = [f"started {self.last}", *lines, f"ok {len(self.book.space.nodes)}", "stopped"]
        if said.stdout.split("\n")[:-1] != wanted:
            raise Lost("the last listing isn't the model's")


def main():
    options = argparse.ArgumentParser(description=__doc__, formatter_class=argparse.RawDescriptionHelpFormatter)
    options.add_argument("program")
    options.add_argument("--runs", type=int, default=200)
    options.add_argument("--seed", type=int, default=random.randrange(10**9))
    options.add_argument("--dirs", type=int, default=3)
    options.add_argument("--place")
    asked = options.parse_args()
    place = tempfile.mkdtemp(prefix="soak.", dir=asked.place)
    soak = Soak(asked.program, asked.seed, asked.dirs, place)
    print(f"seed {asked.seed}, {asked.dirs} directories in {place}", flush=True)
    try:
        soak.format()
        for number in range(asked.runs):
            soak.turn()
        soak.last_run()
    except Lost as why:
        print(f"LOST: {why}\nThe folders, the script and what was said are kept in {place}.")
        return 1
    shutil.rmtree(place)
    print(
        f"{asked.runs} runs, {soak.kills} of them killed, {soak.before} of these before the start was answered: "
        f"{soak.answered} answered commands, {soak.choices} choices of directories opened, {soak.spoiled} tails spoiled, 0 lost"
    )
    return 0


if __name__ == "__main__":
    sys.exit(main())
