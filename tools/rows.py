#!/usr/bin/env python3
"""Runs the program over real folders, a row after another, and compares what it says, its status and the files that it leaves with
what the row says. Some rows want strace, which lets a chosen system call fail, or a small file system; they are passed over without.

Usage: rows.py PROGRAM [WORD]      WORD: only the rows whose title has it
"""
import hashlib
import os
import shutil
import signal
import struct
import subprocess
import sys
import tempfile
import time
import zlib

import reader

ROWS = []


def row(function):
    ROWS.append(function)
    return function


class Differs(Exception):
    pass


class Skipped(Exception):
    pass


def same(what, found, wanted):
    if found != wanted:
        raise Differs(f"{what} is {found!r}, and not {wanted!r}")


# Bytes of records, by docs/FORMATS.md.

HEADER = struct.pack(">iI", reader.LAYOUT, 0)


def record(opcode, number, body=b""):
    text = struct.pack(">BIQ", opcode, 12 + len(body), number) + body
    return text + struct.pack(">I", zlib.crc32(text))


def mkdir(number, inode, path):
    body = struct.pack(">QH", inode, len(path)) + path.encode() + struct.pack(">Q", 0)
    return record(3, number, body + b"\x04hdfs\x0asupergroup" + struct.pack(">H", 0o755))


START, END = 24, 23


def edits(first, last):
    return f"edits_{first:019}-{last:019}"


def in_progress(first):
    return f"edits_inprogress_{first:019}"


def image(number):
    return f"fsimage_{number:019}"


class Place:
    """A folder for a row, with name directories in it, and the program."""

    def __init__(self, program):
        self.program = program
        self.path = tempfile.mkdtemp(prefix="rows.")
        # What the last call told a person, on standard error.
        self.told = ""

    def at(self, *names):
        return os.path.join(self.path, *names)

    def call(self, words, script="", **more):
        """What the words say, with the names of directories taken below this folder, and their status."""
        more.setdefault("stdout", subprocess.PIPE)
        more.setdefault("stderr", subprocess.PIPE)
        if "stdin" not in more:
            more["input"] = script.encode() if isinstance(script, str) else script
        words = words.split() if isinstance(words, str) else words
        done = subprocess.run([self.program, *words], cwd=self.path, **more)
        self.told = (done.stderr or b"").decode()
        return (done.stdout or b"").decode(), done.returncode

    def says(self, words, script, said, status=0, **more):
        same(f"`{words}`", self.call(words, script, **more), ("".join(line + "\n" for line in said.split("|") if line), status))

    def tells(self, words, script, told, said, status, **more):
        """The same, and what is told a person, a line each; of words without a reading the first line, and the forms of the command."""
        self.says(words, script, said, status, **more)
        same(f"what `{words}` tells", self.told, "".join(line + "\n" for line in told.split("|") if line))

    def formatted(self, names, namespace=7):
        for name in names.split():
            os.makedirs(self.at(name), exist_ok=True)
        self.says(f"format --cluster c1 --namespace {namespace} {names}", "", f"formatted {len(names.split())}")

    def write(self, name, data):
        with open(self.at(name), "wb") as file:
            file.write(data)

    def replaces(self, name, old, new):
        data = reader.contents(self.at(name))
        same(f"{old!r} in {name}", data.count(old), 1)
        self.write(name, data.replace(old, new))

    def holds(self, name, *files):
        """`current` of a directory holds just these files, and VERSION and seen_txid."""
        found = sorted(os.listdir(self.at(name, "current")))
        same(f"what {name} holds", found, sorted([*files, "VERSION", "seen_txid"]))

    def has(self, name, data):
        same(name, reader.contents(self.at(name)), data)

    def failing(self, call, error, when, name):
        """The program, with the call of this number on this file failing."""
        if not shutil.which("strace"):
            raise Skipped("strace isn't installed")
        words = ["strace", "-f", "-qq", "-o", self.at("trace"), "-P", self.at(name), "-e", f"trace={call}"]
        return [*words, "-e", f"inject={call}:error={error}:when={when}", self.program]

    def says_failing(self, failing, words, script, said, status=0):
        done = subprocess.run([*failing, *words.split()], cwd=self.path, input=script.encode(), stdout=subprocess.PIPE, stderr=subprocess.PIPE)
        self.told = done.stderr.decode()
        same(f"`{words}`", (done.stdout.decode(), done.returncode), ("".join(line + "\n" for line in said.split("|")), status))


def images(number):
    return image(number), image(number) + ".md5"


# Starts.


@row
def a_run_of_nothing_leaves_a_segment_of_its_two_marks(place):
    place.formatted("A B")
    place.says("run A B", "", "started 0|stopped")
    for name in "AB":
        place.holds(name, *images(0), edits(1, 2))
        place.has(f"{name}/current/seen_txid", b"1\n")
        place.has(f"{name}/current/{edits(1, 2)}", HEADER + record(START, 1) + record(END, 2))


@row
def what_was_answered_is_there_at_the_next_start(place):
    place.formatted("A B")
    place.says("run A B", "".join(f"mkdir /d{n}\n" for n in range(10)), "started 0|" + "ok|" * 10 + "stopped")
    same("bytes of the segment", os.path.getsize(place.at("A/current", edits(1, 12))), 602)
    lines = ["d 16385 0755 hdfs supergroup 0 - - 11 0 /"]
    lines += [f"d {16386 + n} 0755 hdfs supergroup 0 - - 1 0 /d{n}" for n in range(10)]
    place.says("run A B", "list /\n", "started 12|" + "|".join(lines) + "|ok 11|stopped")
    place.has("B/current/seen_txid", b"13\n")
    place.holds("B", *images(0), *images(12), edits(1, 12), edits(13, 14))


@row
def half_a_record_at_the_end_of_a_segment_is_left_out(place):
    place.formatted("A")
    segment = HEADER + record(START, 1) + mkdir(2, 16386, "/a")
    place.write(f"A/current/{in_progress(1)}", segment + mkdir(3, 16387, "/b")[:5])
    place.says("run A", "", "started 2|stopped")
    place.holds("A", *images(0), *images(2), edits(1, 2), edits(3, 4))


@row
def a_finalized_segment_ends_where_its_name_says(place):
    place.formatted("A")
    segment = HEADER + record(START, 1) + mkdir(2, 16386, "/a") + record(END, 3) + record(START, 4)
    place.write(f"A/current/{edits(1, 3)}", segment)
    place.says("run A", "", "started 3|stopped")


@row
def a_directory_that_lags_behind_is_topped_up(place):
    place.formatted("A B")
    segment = HEADER + record(START, 1) + mkdir(2, 16386, "/a")
    place.write(f"A/current/{in_progress(1)}", segment + mkdir(3, 16387, "/b"))
    place.write(f"B/current/{in_progress(1)}", segment)
    nodes = "d 16385 0755 hdfs supergroup 0 - - 3 0 /|d 16386 0755 hdfs supergroup 0 - - 1 0 /a|d 16387 0755 hdfs supergroup 0 - - 1 0 /b"
    place.says("run A B", "list /\n", f"started 3|{nodes}|ok 3|stopped")
    place.holds("A", *images(0), *images(3), edits(1, 3), edits(4, 5))
    place.holds("B", *images(0), *images(3), edits(4, 5))


@row
def an_empty_directory_is_filled(place):
    place.formatted("A")
    os.mkdir(place.at("B"))
    place.says("run A B", "", "started 0|stopped")
    place.holds("B", *images(0), edits(1, 2))
    place.has("B/current/VERSION", reader.contents(place.at("A/current/VERSION")))


@row
def a_later_change_of_layout_wins_over_a_longer_journal(place):
    place.formatted("A B")
    place.says("run A", "", "started 0|stopped")
    place.says("run B", "mkdir /a\n" * 7, "started 0|ok|" + "refused exists|" * 6 + "stopped")
    place.replaces("A/current/VERSION", b"cTime=0\n", b"cTime=1\n")
    place.says("run A B", "", "started 2|stopped")
    place.has("B/current/VERSION", reader.contents(place.at("A/current/VERSION")))
    place.holds("B", *images(2), edits(3, 4))


@row
def an_upgrade_that_was_cut_off_is_undone(place):
    place.formatted("A")
    os.rename(place.at("A/current"), place.at("A/previous.tmp"))
    os.mkdir(place.at("A/current"))
    place.says("state A", "", "0 RECOVER_UPGRADE")
    place.says("run A", "", "started 0|stopped")
    place.says("state A", "", "0 NORMAL")


# Refusals.


@row
def an_id_that_was_seen_and_is_gone_refuses(place):
    place.formatted("A")
    place.write("A/current/seen_txid", b"9\n")
    place.write(f"A/current/{edits(1, 3)}", HEADER + record(START, 1) + mkdir(2, 16386, "/a") + record(END, 3))
    place.says("run A", "", "refused gap 9 3", 2)
    place.holds("A", *images(0), edits(1, 3))


@row
def an_inconsistent_directory_refuses(place):
    place.formatted("A")
    os.mkdir(place.at("A/previous"))
    os.mkdir(place.at("A/removed.tmp"))
    place.says("state A", "", "0 inconsistent rollback-both|refused inconsistent 0 rollback-both", 2)
    place.says("run A", "", "refused inconsistent 0 rollback-both", 2)


@row
def a_missing_or_an_unformatted_directory_refuses(place):
    place.formatted("A")
    place.says("run A B", "", "refused missing 1", 2)
    os.mkdir(place.at("B"))
    place.says("run B", "", "refused not-formatted", 2)


@row
def a_compressed_image_refuses(place):
    place.formatted("A")
    name = f"A/current/{image(0)}"
    data = reader.contents(place.at(name))
    summary = data[77:-4]
    summary = summary[:5] + b"\x1a\x02lz" + summary[5:]
    data = data[:76] + bytes([len(summary)]) + summary + struct.pack(">I", 1 + len(summary))
    place.write(name, data)
    place.write(name + ".md5", f"{hashlib.md5(data).hexdigest()} *{image(0)}\n".encode())
    place.says("run A", "", "refused no-image 0 codec", 2)


@row
def a_directory_of_another_layout_or_namespace_refuses(place):
    for layout, why in ((b"-60", "foreign-layout 0 -60"), (b"-1002", "future-layout 0 -1002")):
        shutil.rmtree(place.at("A"), ignore_errors=True)
        place.formatted("A")
        place.replaces("A/current/VERSION", b"-1001", layout)
        place.says("run A", "", f"refused {why}", 2)
    place.formatted("B")
    place.formatted("C", 8)
    place.says("run B C", "", "refused mismatch 0 1 namespaceID", 2)
    place.replaces("B/current/VERSION", b"cTime=0\n", b"")
    place.says("run B C", "", "refused bad-version 0", 2)


@row
def words_without_a_reading_are_answered_usage(place):
    for words in ("run", "run A A", "run --at 1 --at 2 A", "run --at -5 A", "run --at x A", "run --help", "run --batch 0 A", "fly A"):
        place.says(words, "", "usage", 1)


# Scripts.


@row
def a_roll_begins_a_new_segment(place):
    place.formatted("A B")
    place.says("run A B", "mkdir /a\nroll\nmkdir /b\n", "started 0|ok|ok|ok|stopped")
    for name in "AB":
        place.holds(name, *images(0), edits(1, 3), edits(4, 6))
        place.has(f"{name}/current/seen_txid", b"4\n")


@row
def three_checkpoints_leave_two_images_and_the_segments_behind_the_older(place):
    place.formatted("A B")
    place.says("run A B", "checkpoint\n" * 3, "started 0|ok|ok|ok|stopped")
    for name in "AB":
        place.holds(name, *images(4), *images(6), edits(5, 6), edits(7, 8))
        place.has(f"{name}/current/seen_txid", b"7\n")


@row
def a_start_falls_back_on_the_image_before_a_damaged_one_and_needs_the_segments_between(place):
    for gone, said, status in [(False, "started 8|stopped", 0), (True, "refused gap 7 4", 2)]:
        for name in "AB":
            shutil.rmtree(place.at(name), ignore_errors=True)
        place.formatted("A B")
        place.says("run A B", "checkpoint\n" * 3, "started 0|ok|ok|ok|stopped")
        for name in "AB":
            data = bytearray(reader.contents(place.at(name, "current", image(6))))
            data[40] ^= 1
            place.write(f"{name}/current/{image(6)}", bytes(data))
            if gone:
                os.remove(place.at(name, "current", edits(5, 6)))
        place.says("run A B", "", said, status)


@row
def a_clock_that_is_given_stands_in_the_records(place):
    place.formatted("A")
    place.says("run --at 7 A", "mkdir /a\nclock 9\nmkdir /b\n", "started 0|ok|ok|ok|stopped")
    nodes = "d 16385 0755 hdfs supergroup 9 - - 3 0 /|d 16386 0755 hdfs supergroup 7 - - 1 0 /a|d 16387 0755 hdfs supergroup 9 - - 1 0 /b"
    place.says("run A", "list /\n", f"started 4|{nodes}|ok 3|stopped")


@row
def an_input_that_cannot_be_read_is_a_source_fault(place):
    place.formatted("A B")
    folder = os.open(place.at("A"), os.O_RDONLY | os.O_DIRECTORY)
    place.says("run A B", "", "started 0|source fault", 5, stdin=folder)
    os.close(folder)
    place.says("run A B", "", "started 1|stopped")


@row
def a_script_of_more_than_2_to_the_26_bytes_is_too_long(place):
    place.formatted("A")
    place.says("run A", b"mkdir /a\n" + b"\n" * (2**26 - 8), "started 0|ok|script too long", 6)
    place.says("run A", "", "started 2|stopped")


# Calls that fail.


@row
def a_directory_whose_sync_fails_is_dropped_and_topped_up_later(place):
    place.formatted("A B")
    failing = place.failing("fdatasync", "EIO", 2, f"B/current/{in_progress(1)}")
    place.says_failing(failing, "run A B", "mkdir /a\ndirs\n", "started 0|ok|dir 0 live|dir 1 dropped|ok|stopped")
    place.holds("A", *images(0), edits(1, 3), edits(4, 5))
    place.says("run A B", "", "started 5|stopped")
    place.holds("B", *images(0), *images(5), edits(6, 7))


@row
def a_dropped_directory_is_taken_back_by_its_line(place):
    place.formatted("A B")
    failing = place.failing("fdatasync", "EIO", 2, f"B/current/{in_progress(1)}")
    said = "started 0|ok|dir 0 live|dir 1 dropped|ok|ok|dir 0 live|dir 1 live|ok|stopped"
    place.says_failing(failing, "run A B", "mkdir /a\ndirs\nrestore 1\ndirs\n", said)
    place.holds("A", *images(0), edits(1, 3), edits(4, 5), edits(6, 7))
    place.holds("B", *images(5), edits(6, 7))
    place.has("B/current/seen_txid", b"6\n")
    # Alone it opens to all that was answered.
    place.says("run B", "list /a\n", "started 7|d 16386 0755 hdfs supergroup 0 - - 1 0 /a|ok 1|stopped")


@row
def a_run_whose_last_directory_fails_ends(place):
    place.formatted("A")
    failing = place.failing("fdatasync", "EIO", 3, f"A/current/{in_progress(1)}")
    place.says_failing(failing, "run A", "mkdir /a\nmkdir /b\nmkdir /c\n", "started 0|ok|none left", 4)
    said, status = place.call("run A", "list /a\n")
    same("what was answered", ("/a\nok 1\nstopped\n" in said, status), (True, 0))


@row
def a_full_or_a_read_only_disk_drops_its_directory(place):
    for number, (error, part) in enumerate((("ENOSPC", "a"), ("EROFS", "b"))):
        place.formatted(f"{part}0 {part}1")
        failing = place.failing("write", error, 3, f"{part}1/current/{in_progress(1)}")
        place.says_failing(
            failing, f"run {part}0 {part}1", "mkdir /a\nmkdir /b\ndirs\n", "started 0|ok|ok|dir 0 live|dir 1 dropped|ok|stopped"
        )
        place.says(f"run {part}0 {part}1", "", "started 6|stopped")


@row
def a_disk_that_fills_up_drops_its_directory(place):
    os.mkdir(place.at("B"))
    mounted = subprocess.run(["mount", "-t", "tmpfs", "-o", "size=48k", "tmpfs", place.at("B")], stderr=subprocess.DEVNULL)
    if mounted.returncode != 0:
        raise Skipped("no file system could be mounted")
    try:
        place.formatted("A B")
        said, status = place.call("run A B", "".join(f"mkdir /d{n}\n" for n in range(900)) + "dirs\n")
        same("the answers", (said, status), ("started 0\n" + "ok\n" * 900 + "dir 0 live\ndir 1 dropped\nok\nstopped\n", 0))
    finally:
        subprocess.run(["umount", place.at("B")], check=True)
    place.says("run A B", "list /d899\n", "started 904|d 17285 0755 hdfs supergroup 0 - - 1 0 /d899|ok 1|stopped")


@row
def a_call_that_fails_before_the_start_is_answered_ends_the_run(place):
    place.formatted("A B")
    os.mkdir(place.at("B/current/seen_txid.tmp"))
    place.says("run A B", "mkdir /a\n", "fault 1", 3)
    os.rmdir(place.at("B/current/seen_txid.tmp"))
    # A had begun its segment, and rolled as B was dropped.
    place.says("run A B", "", "started 3|stopped")


class Talk:
    """A run that is given its script line by line."""

    def __init__(self, place, words, begins=0, **more):
        self.child = subprocess.Popen(
            [place.program, *words.split()],
            cwd=place.path,
            stdin=subprocess.PIPE,
            stdout=subprocess.PIPE,
            stderr=subprocess.PIPE,
            text=True,
            bufsize=1,
            **more,
        )
        self.hears(f"started {begins}")

    def hears(self, answer):
        same("an answer", self.child.stdout.readline(), answer + "\n")

    def asks(self, line, answer):
        self.child.stdin.write(line + "\n")
        self.child.stdin.flush()
        self.hears(answer)

    def ends(self):
        self.child.stdin.close()
        rest = self.child.stdout.read()
        self.told = self.child.stderr.read()
        return rest, self.child.wait()


@row
def a_folder_that_goes_away_is_dropped_at_the_next_roll(place):
    place.formatted("A B")
    talk = Talk(place, "run A B")
    talk.asks("mkdir /a", "ok")
    os.rename(place.at("B"), place.at("gone"))
    talk.asks("mkdir /b", "ok")
    talk.asks("roll", "ok")
    talk.asks("dirs", "dir 0 live")
    talk.hears("dir 1 dropped")
    talk.hears("ok")
    same("the end", talk.ends(), ("stopped\n", 0))
    os.rename(place.at("gone"), place.at("B"))
    place.says("run A B", "list /b\n", "started 8|d 16387 0755 hdfs supergroup 0 - - 1 0 /b|ok 1|stopped")


@row
def a_folder_that_comes_back_is_taken_back_once_it_is_whole(place):
    place.formatted("A B")
    talk = Talk(place, "run A B")
    talk.asks("mkdir /a", "ok")
    os.rename(place.at("B"), place.at("gone"))
    talk.asks("roll", "ok")
    talk.asks("restore 1", "refused missing")
    os.rename(place.at("gone"), place.at("B"))
    os.makedirs(place.at("B", "removed.tmp"))
    os.makedirs(place.at("B", "previous"))
    talk.asks("restore 1", "refused inconsistent")
    talk.asks("restore 2", "refused no-such-dir")
    os.rmdir(place.at("B", "removed.tmp"))
    talk.asks("restore 1", "ok")
    same("what is left of B's folders", os.listdir(place.at("B")), ["current"])
    talk.asks("mkdir /b", "ok")
    same("the end", talk.ends(), ("stopped\n", 0))
    last = reader.Chain(place.at("B", "current")).last
    place.says("run B", "list /b\n", f"started {last}|d 16387 0755 hdfs supergroup 0 - - 1 0 /b|ok 1|stopped")


@row
def ten_checkpoints_in_two_runs_leave_folders_of_one_size(place):
    place.formatted("A B")
    sizes, begins = [], 0
    for first in (0, 5):
        talk = Talk(place, "run A B", begins)
        for turn in range(first, first + 5):
            for line in a_turn(turn):
                talk.asks(line, "ok")
            talk.asks("checkpoint", "ok")
            for name in "AB":
                files = os.listdir(place.at(name, "current"))
                ids = sorted(number for number in (reader.numbered(file, "fsimage_") for file in files) if number is not None)
                same("how many images there are", len(ids), 2)
                older, newer = ids
                place.holds(name, *images(older), *images(newer), edits(older + 1, newer), in_progress(newer + 1))
                sizes.append(sum(os.path.getsize(place.at(name, "current", file)) for file in files))
        same("the end", talk.ends(), ("stopped\n", 0))
        # The marks at both ends of the last segment took an id each.
        begins = newer + 2
    # Two images of as many nodes, and the segment of one turn between them, from the second turn on. Numbers may take a byte more.
    same("the sizes", [size for size in sizes[2:] if not sizes[2] <= size <= sizes[2] + 64], [])


def a_turn(number):
    """Lines that put twenty files in the place of those of the turn before."""
    yield f"mkdir /t{number}"
    for k in range(20):
        yield from (f"create /t{number}/f{k} 3", f"block /t{number}/f{k} {1000 + k}", f"close /t{number}/f{k}")
    if number > 0:
        yield f"delete /t{number - 1}"


@row
def a_run_whose_only_folder_goes_away_does_not_end_by_0(place):
    place.formatted("A")
    talk = Talk(place, "run A")
    talk.asks("mkdir /a", "ok")
    os.rename(place.at("A"), place.at("gone"))
    same("the end", talk.ends(), ("none left\n", 4))


# Ends from outside.


@row
def a_signal_ends_a_run_as_a_stop_does(place):
    for number, end in enumerate((signal.SIGTERM, signal.SIGINT, signal.SIGKILL)):
        name = f"S{number}"
        place.formatted(name)
        talk = Talk(place, f"run {name}")
        talk.asks("mkdir /a", "ok")
        talk.child.send_signal(end)
        same("the end", talk.child.wait(), -end)
        place.holds(name, *images(0), in_progress(1))
        place.says(f"run {name}", "list /a\n", "started 2|d 16386 0755 hdfs supergroup 0 - - 1 0 /a|ok 1|stopped")


@row
def an_output_whose_reader_is_gone_ends_a_run_by_8(place):
    place.formatted("A")
    talk = Talk(place, "run A", restore_signals=True)
    talk.child.stdout.close()
    talk.child.stdin.write("mkdir /a\nmkdir /b\n")
    talk.child.stdin.close()
    same("the end", talk.child.wait(), 8)
    place.says("run A", "", "started 2|stopped")


@row
def an_output_that_is_full_ends_a_run_by_8(place):
    place.formatted("A B")
    with open("/dev/full", "wb") as full:
        place.says("run A B", "mkdir /a\n", "", 8, stdout=full)
    place.says("run A B", "", "started 1|stopped")


# Descriptors that are closed as the program begins: which, what is said and the status, and where the next start begins.
CLOSED = (
    ((0,), "started 0|stopped", 0, 2),
    ((1,), "", 8, 1),
    ((2,), "started 0|ok|stopped", 0, 3),
    ((0, 1), "", 8, 1),
    ((0, 1, 2), "", 8, 1),
)


@row
def a_segment_is_never_the_output_where_descriptors_are_closed(place):
    for closed, said, status, last in CLOSED:
        name = "C" + "".join(map(str, closed))
        place.formatted(name)
        # By a shell, since Python itself needs the descriptors that it hands on.
        closing = " ".join(f"{number}{'<' if number == 0 else '>'}&-" for number in closed)
        command = f'"$0" run {name} {closing}'
        done = subprocess.run(["sh", "-c", command, place.program], cwd=place.path, input=b"mkdir /a\n", stdout=subprocess.PIPE, stderr=subprocess.DEVNULL)
        wanted = "".join(line + "\n" for line in said.split("|") if line)
        same(f"`{command}`", (done.stdout.decode(), done.returncode), (wanted, status))
        for file in os.listdir(place.at(name, "current")):
            data = reader.contents(place.at(name, "current", file))
            if file.startswith("edits"):
                first = int(file.split("_")[-1].split("-")[0])
                ends = [end for _, _, _, end in reader.records_of(data, first)]
                same(f"what stands behind the records of {file}", data[ends[-1] :], b"")
        place.says(f"run {name}", "", f"started {last}|stopped")


# Generated scripts.


def generated(count):
    """The lines of a script for so many files, by docs/OPERATING.md."""
    for k in range(count):
        folder = f"/g{k // 100}"
        if k % 100 == 0:
            yield f"mkdir {folder}\n"
        yield f"create {folder}/f{k} 3\n"
        yield f"block {folder}/f{k} {1 + k * 9000 % 134217728}\n"
        yield f"close {folder}/f{k}\n"


@row
def a_script_is_said_for_a_number_of_files(place):
    place.says("generate 2", "", "mkdir /g0|create /g0/f0 3|block /g0/f0 1|close /g0/f0|create /g0/f1 3|block /g0/f1 9001|close /g0/f1")
    for words, count in (("generate 101", 101), ("generate 30000 --", 30000), ("generate 500000", 500000)):
        # A difference shows its status and its length.
        said, status = place.call(words, "mkdir /a\n")
        wanted = "".join(generated(count))
        same(f"`{words}`", (status, len(said), said == wanted), (0, len(wanted), True))
    same("what is there", os.listdir(place.path), [])


@row
def a_generated_script_is_taken_by_dry_and_by_a_run(place):
    script = place.call("generate 150")[0]
    answers = "ok|" * 452
    place.says("dry", script, answers)
    place.formatted("A B")
    place.says("run A B", script, f"started 0|{answers}stopped")
    place.says("run A B", "list /g1/f149\n", "started 454|f 16537 0644 hdfs supergroup 0 3 closed 1 1341001 /g1/f149|b 1073741974 1150 1341001|ok 1|stopped")


@row
def a_run_over_generated_lines_counts_their_answers(place):
    place.formatted("A B")
    place.says("run --generate 20000 A B", "mkdir /a\n", "started 0|commands 60200 ok 60200|stopped")
    place.says("run A B --generate=101", "", "started 60202|commands 305 ok 0|stopped")
    place.says("run A B", "list /g199/f19999\n", "started 60204|f 36585 0644 hdfs supergroup 0 3 closed 1 45773273 /g199/f19999|b 1073761824 21000 45773273|ok 1|stopped")


@row
def a_run_over_generated_lines_goes_on_without_a_directory_that_fails(place):
    place.formatted("A B")
    failing = place.failing("fdatasync", "EIO", 5, f"B/current/{in_progress(1)}")
    place.says_failing(failing, "run --generate 100 A B", "", "started 0|commands 301 ok 301|stopped")
    place.says("run A B", "", "started 305|stopped")


@row
def an_output_that_is_full_ends_generate_by_8(place):
    with open("/dev/full", "wb") as full:
        place.says("generate 500000", "", "", 8, stdout=full)


# A person at the terminal. Where one of these lines can't be written, nothing changes.

FORMS = {
    "state": "namenode state DIR..",
    "format": "namenode format --cluster C --namespace N DIR..",
    "dry": "namenode dry < SCRIPT",
    "run": "namenode run [--at T] DIR.. < SCRIPT\n       namenode run [--at T] --generate N DIR..",
    "generate": "namenode generate N",
}
EVERY_FORM = "\n       ".join(FORMS.values())

# Words without a reading, and what is told of them first.
UNREAD = (
    ((), "a command is missing"),
    (("--help",), "unrecognized command '--help'"),
    (("help",), "unrecognized command 'help'"),
    (("fly", "A"), "unrecognized command 'fly'"),
    (("run",), "the following required arguments were not provided:\n  <DIR>..."),
    (("run", "--help"), "unexpected argument '--help' found\n\n  tip: to pass '--help' as a value, use '-- --help'"),
    (("run", "A", "A"), "the directory 'A' is given twice"),
    (("run", "A", ""), "a directory is an empty word"),
    (("run", *"ABCDEFGHI"), "the directory 'I' is one too many: there are at most 8"),
    (("run", "A", "--at", "5", "B"), "the directory 'B' stands apart from those before it: no option and no '--' may stand between"),
    (("run", "A", "--", "B"), "the directory 'B' stands apart from those before it: no option and no '--' may stand between"),
    (("run", "--at", "1", "--at=2", "A"), "the argument '--at <T>' cannot be used multiple times"),
    (("run", "--at", "-5", "A"), "'--at' takes a value, and '-5' behind it begins with '-'"),
    (("run", "--at=-5", "A"), "'--at' takes milliseconds, from 0 to 9223372036854775807, and not '-5'"),
    (("run", "A", "--at"), "'--at' takes a value, and no word stands behind it"),
    (("run", "--generate", "0", "A"), "'--generate' takes a number from 1 to 500000, and not '0'"),
    (("run", "--generate=500001", "A"), "'--generate' takes a number from 1 to 500000, and not '500001'"),
    (("run", "--generate=2", "A", "--generate", "2"), "the argument '--generate <N>' cannot be used multiple times"),
    (("run", "--batch=0", "A"), "unexpected argument '--batch' found\n\n  tip: a similar argument exists: '--at'"),
    (("state", "-x"), "unexpected argument '-x' found\n\n  tip: to pass '-x' as a value, use '-- -x'"),
    (("dry", "A"), "unexpected argument 'A' found"),
    (("generate",), "the following required arguments were not provided:\n  <N>"),
    (("generate", "0"), "'generate' takes a number from 1 to 500000, and not '0'"),
    (("generate", "500001"), "'generate' takes a number from 1 to 500000, and not '500001'"),
    (("generate", "--", "5"), "'generate' takes a number from 1 to 500000, and not '--'"),
    (("generate", "2", "A"), "unexpected argument 'A' found"),
    (("generate", "2", "--", "A"), "unexpected argument 'A' found"),
    (("generate", "--batch=5"), "'generate' takes a number from 1 to 500000, and not '--batch=5'"),
    (("format", "--cluster", "c1", "A"), "the following required arguments were not provided:\n  --namespace <N>"),
    (("format", "--cluster", "-", "--namespace", "7", "A"), "'--cluster' takes a value, and '-' behind it begins with '-'"),
    (("format", "--cluster=a b", "--namespace", "7", "A"), "'--cluster' takes 1 to 255 bytes that print, without spaces, and not 'a b'"),
    (("format", "--cluster", "c1", "--namespace=0", "A"), "'--namespace' takes a number from 1 to 2147483647, and not '0'"),
)


@row
def words_without_a_reading_are_explained_with_the_forms_of_their_command(place):
    for words, told in UNREAD:
        form = FORMS.get(words[0] if words else "", EVERY_FORM)
        same(f"`{words}`", place.call(words), ("usage\n", 1))
        same(f"what `{words}` tells", place.told, f"error: {told}\n\nUsage: {form}\n")
    same("a word that isn't UTF-8", place.call([b"run", b"\xff"]), ("usage\n", 1))
    same("what it tells", place.told.split("\n")[0], "namenode: a word isn't UTF-8")
    same("what is there", os.listdir(place.path), [])


@row
def a_refusal_is_explained_by_the_path_and_what_helps(place):
    about = "namenode: directory {} is {}: {}".format
    os.mkdir(place.at("A"))
    missing = about(1, "Z", "no folder stands there; make it, or mount its file system")
    place.tells("state A Z", "", missing, "0 NOT_FORMATTED|1 NON_EXISTENT|refused missing 1", 2)
    place.tells("run A Z", "", missing, "refused missing 1", 2)
    nothing = "namenode: no directory holds a namespace; if you want a new one, use `namenode format`"
    place.tells("run A", "", nothing, "refused not-formatted", 2)
    place.formatted("A B")
    held = about(0, "A", "it holds a namespace already; leave it out, or give an empty folder in its place")
    place.tells("format --cluster c1 --namespace 7 A B", "", held, "refused formatted 0", 2)
    place.formatted("C", 8)
    other = about(0, "A", "it holds one namespace") + "|" + about(1, "C", "it holds another, by its namespaceID; leave one of the two out")
    place.tells("run A C", "", other, "refused mismatch 0 1 namespaceID", 2)
    place.write("A/current/VERSION", b"")
    unread = about(1, "A", "its VERSION doesn't read; give an empty folder in its place, beside a directory that is whole")
    place.tells("run B A", "", unread, "refused bad-version 1", 2)
    os.mkdir(place.at("A/previous.tmp"))
    os.mkdir(place.at("A/removed.tmp"))
    mixed = about(1, "A", "no operation leaves its folders so; keep it as it is, and run over the others")
    place.tells("run B A", "", mixed, "refused inconsistent 1 several-tmp", 2)
    place.write(f"B/current/{image(0)}", b"")
    damaged = about(0, "B", "its newest image is damaged or gone, and so are the older ones; bring one with its MD5 file from a copy")
    place.tells("run B", "", damaged, "refused no-image 0 digest", 2)


@row
def a_lost_segment_is_explained_by_the_records_that_are_missing(place):
    place.formatted("A")
    place.write("A/current/seen_txid", b"9\n")
    told = "namenode: the records behind 0 are lost, up to 8 at least: run over all directories of the last run, or bring the missing segment back from a copy"
    place.tells("run A", "", told, "refused gap 9 0", 2)


@row
def a_failed_call_is_told_with_its_path_and_the_error_of_the_system(place):
    place.formatted("A B")
    os.mkdir(place.at("B/current/seen_txid.tmp"))
    told = "namenode: directory 1: can't make B/current/seen_txid.tmp: entity already exists"
    mend = "namenode: directory 1 is B: no line of the script was read; mend it and run the same again"
    place.tells("run A B", "mkdir /a\n", f"{told}|{mend}", "fault 1", 3)
    os.mkdir(place.at("Q"))
    place.write("Q/current", b"")
    told = "namenode: directory 0: can't make Q/current: File exists (os error 17)"
    mend = "namenode: directory 0 is Q: mend it; `namenode state` tells which directories are formatted, the others can be formatted again"
    place.tells("format --cluster c1 --namespace 7 Q", "", f"{told}|{mend}", "fault 0", 3)


@row
def a_directory_is_told_of_as_it_is_dropped_and_again_at_the_end(place):
    place.formatted("A B")
    talk = Talk(place, "run A B")
    talk.asks("mkdir /a", "ok")
    os.rename(place.at("B"), place.at("gone"))
    talk.asks("roll", "ok")
    dropped = f"namenode: directory 1: can't rename B/current/{in_progress(1)}: entity not found\n"
    same("what is told at once", talk.child.stderr.readline(), dropped)
    same("the end", talk.ends(), ("stopped\n", 0))
    left = "namenode: directory 1 is B: it failed and was left out, unless a line `restore` took it back; once it works, run over all of these directories again\n"
    same("what is told at the end", talk.told, left)


@row
def two_paths_to_one_folder_are_warned_of_before_anything_is_done(place):
    place.formatted("A B")
    os.symlink("B", place.at("link"))
    warns = "namenode: warning: directories {} and {}, {} and {}, are one folder: what a run writes there is lost".format
    place.tells("state A ./A", "", warns(0, 1, "A", "./A"), "0 NORMAL|1 NORMAL", 0)
    place.tells("state link A B", "", warns(0, 2, "link", "B"), "0 NORMAL|1 NORMAL|2 NORMAL", 0)
    talk = Talk(place, "run B link")
    same("what is told before the first line", talk.child.stderr.readline(), warns(0, 1, "B", "link") + "\n")
    talk.ends()


@row
def an_input_or_an_output_that_fails_is_told_with_the_error_of_the_system(place):
    place.formatted("A")
    folder = os.open(place.path, os.O_RDONLY)
    told = "namenode: can't read standard input: Is a directory (os error 21)"
    place.tells("run A", None, told, "started 0|source fault", 5, stdin=folder)
    os.close(folder)
    with open("/dev/full", "wb") as full:
        told = "namenode: can't write to standard output: No space left on device (os error 28)"
        place.tells("dry", "list /\n", told, "", 8, stdout=full)
    long = "namenode: a script has at most 67108864 bytes; what was answered was done, and the rest wants a run of its own"
    place.tells("dry", "\n" * (2**26 + 1), long, "script too long", 6)


@row
def what_cannot_be_told_changes_nothing(place):
    place.formatted("A")
    read, write = os.pipe()
    os.close(read)
    with open("/dev/full", "wb") as full, open(write, "wb") as unread:
        for err in (full, unread, subprocess.DEVNULL):
            place.says("run A A", "", "usage", 1, stderr=err)
            place.says("format --cluster c1 --namespace 7 A", "", "refused formatted 0", 2, stderr=err)
            place.says("state A ./A", "", "0 NORMAL|1 NORMAL", 0, stderr=err)


def main(words):
    if not words:
        print(__doc__.strip(), file=sys.stderr)
        return 1
    failed = skipped = done = 0
    for it in ROWS:
        title = it.__name__.replace("_", " ")
        if len(words) > 1 and words[1] not in title:
            continue
        place = Place(os.path.abspath(words[0]))
        try:
            it(place)
            print(f"ok        {title}", flush=True)
            done += 1
        except Skipped as why:
            print(f"skipped   {title}: {why}", flush=True)
            skipped += 1
        except Differs as why:
            print(f"DIFFERS   {title}: {why}", flush=True)
            failed += 1
        shutil.rmtree(place.path)
    print(f"{done} rows as they say, {skipped} skipped, {failed} differ")
    return 1 if failed else 0


if __name__ == "__main__":
    sys.exit(main(sys.argv[1:]))
