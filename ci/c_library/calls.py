#!/usr/bin/env python3
"""Draws designs and a script for each, and runs the script by `netdb run` and by library/netdb.py: the history, the replies and the last
version are to be the same, byte for byte. Then each text of the last version beside that of its command.

    calls.py [COUNT [SEED]]     draws so many, ten where none is said

NETDB in the environment names another program than the one of this repository, and NETDB_LIBRARY the shared library."""
import os, random, subprocess, sys, tempfile

TOP = os.path.dirname(os.path.dirname(os.path.dirname(os.path.realpath(__file__))))
sys.path[:0] = [os.path.join(TOP, "ci"), os.path.join(TOP, "library")]
sys.dont_write_bytecode = True
PROGRAM = os.environ.get("NETDB", os.path.join(TOP, "netdb"))

import netdb
from model.text import canonical
from replay import draws
from replay.scripts import BadLine, parse


class Session:
    """One script at seat 0, with the lines that it is told."""

    def __init__(self, db):
        self.db, self.pin, self.tx, self.told = db, None, None, []

    def refused_pin(self, error):
        word = {netdb.Status.NO_VERSION: "no-version", netdb.Status.GONE: "gone"}[error.status]
        self.told.append(f"{word} {error.number}\n")

    def line(self, line):
        words = line.replace("\t", " ").split(" ")
        words = [word for word in words if word]
        word = words[0]
        if word == "begin":
            self.pin = self.db.pin()
            self.tx = self.pin.transaction()
            self.told.append(f"begin {self.pin.version}\n")
        elif word == "commit":
            self.told.append(f"committed {self.tx.commit()}\n")
            self.leave()
        elif word == "abandon":
            self.tx.abandon()
            self.leave()
            self.told.append("abandoned\n")
        elif word == "collect":
            self.told.append(f"collected {self.db.collect()}\n")
        elif word in ("pin", "pin-at"):
            try:
                self.pin = self.db.pin(int(words[1]) if word == "pin-at" else None)
                self.told.append(f"pin {self.pin.version}\n")
            except netdb.NetdbError as error:
                self.refused_pin(error)
        elif word in ("walk", "release") and self.pin is None:
            self.told.append("no-pin\n")
        elif word == "walk":
            self.walk(int(words[2]) if len(words) > 1 else None)
        elif word == "release":
            self.leave()
            self.told.append("released\n")
        else:
            self.told.append(self.tx.line(line))

    def walk(self, limit):
        lines = self.pin.view().lines()
        for shown, line in enumerate(lines):
            if shown == limit:
                self.told.append("more\n")
                return
            self.told.append(line)
        self.told.append("end\n")

    def leave(self):
        self.pin.release()
        self.pin = self.tx = None

    def end(self):
        if self.tx is not None:
            self.tx.abandon()
        if self.pin is not None:
            self.leave()


def by_library(design, script):
    """The report of the script, and the five texts of the last version."""
    with netdb.Netdb(design) as db:
        session = Session(db)
        for line in script.decode("latin-1").split("\n"):
            line = line.removesuffix("\r")
            if line.strip(" \t") and not line.strip(" \t").startswith("#"):
                session.line(line)
        session.end()
        report = db.report()
        history, _, last = report.partition(b"\ndesign\n")
        with db.pin() as pin, pin.view() as view:
            texts = {what: view.whole(what) for what in ("edif", "flat", "csv", "erc", "uses")}
        return history + b"\nscript 0\n" + "".join(session.told).encode("latin-1") + b"design\n" + last, texts


def command(*words):
    return subprocess.run([PROGRAM, *words], capture_output=True, check=True).stdout


def compare(draw, folder):
    """One design and one script that is good, whose design has a top where it walks."""
    while True:
        drawn = draws.design(draw)
        script = draws.scripts(draw, drawn)[0]
        try:
            steps = parse(script)
        except BadLine:
            continue
        if drawn.top is not None:
            break
    design, script = canonical(drawn).encode("latin-1"), script.encode("latin-1")
    paths = [os.path.join(folder, name) for name in ("design", "script", "last")]
    for path, data in zip(paths, (design, script)):
        with open(path, "wb") as file:
            file.write(data)
    report, texts = by_library(design, script)
    want = command("run", paths[0], paths[1])
    if report != want:
        sys.exit(f"calls.py: the report by library differs from that by command:\n{report.decode('latin-1')}\n----\n{want.decode('latin-1')}")
    with open(paths[2], "wb") as file:
        file.write(texts["edif"])
    for what, words in (("edif", ["write"]), ("flat", ["flat"]), ("csv", ["csv"]), ("erc", ["erc"])):
        if texts[what] != command(*words, paths[2]):
            sys.exit(f"calls.py: the text {what} by library differs from that by command")
    return len(steps)


def conflict():
    """Two seats that conflict, in Python's words."""
    with netdb.Netdb.open(os.path.join(TOP, "examples", "stages.edif")) as db:
        with db.pin(seat=0) as a, db.pin(seat=1) as b:
            with a.transaction() as tx:
                tx.line("set-prop work stage inst i SIZE int 2")
            assert tx.version == 1
            try:
                with b.transaction() as tx:
                    tx.line("set-prop work stage inst i SIZE int 3")
                sys.exit("calls.py: no conflict")
            except netdb.Conflict as error:
                assert (error.object, error.version) == ("contents work stage", 1), error
        with db.pin() as pin:
            items = list(pin.view().walk())
        assert items[0].kind == "inst" and items[0].path == "/" and any(item.direction == "input" for item in items)
    try:
        netdb.Netdb(b"(edif x)")
        sys.exit("calls.py: no bad design")
    except netdb.BadDesign as error:
        assert error.byte is not None, error


def refused(status, call, *words):
    try:
        call(*words)
        sys.exit(f"calls.py: {call.__name__} is not refused")
    except netdb.NetdbError as error:
        assert error.status == status, error


def questions():
    """Each question in Python's words, on the example of two stages."""
    with netdb.Netdb.open(os.path.join(TOP, "examples", "stages.edif")) as db, db.pin() as pin:
        asked = pin.questions()
    with asked:
        a, m, y = (netdb.Net("/", name) for name in "amy")
        assert asked.version == 0
        assert asked.at("s1/i") == netdb.Instance("/s1/i", "cells", "INV", "")
        assert asked.net_of("s1/i", "A") == m and asked.inner_net_of("s1", "Y") == y and asked.inner_net_of("s1/i", "Y") is None
        assert asked.first_of(netdb.Net("s0", "y")) == m
        assert asked.is_same(netdb.Net("s0", "y"), netdb.Net("s1", "a")) and not asked.is_same(m, y)
        assert list(asked.pins(m)) == [netdb.NetPin("/s0/i", "Y", 0), netdb.NetPin("/s1/i", "A", 0)]
        assert list(asked.drivers(a)) == [netdb.NetPin("/", "A", 0)] and list(asked.loads(a)) == [netdb.NetPin("/s0/i", "A", 0)]
        assert [inst.path for inst in asked.insts()] == ["/s0", "/s1"] and asked.insts("s0/i") == []
        assert asked.nets("s1") == [(netdb.Net("/s1", "a"), m), (netdb.Net("/s1", "y"), y)]
        refused(netdb.Status.NO_PATH, asked.at, "s2")
        refused(netdb.Status.NO_NAME, asked.net_of, "s1", "A", 1)
        refused(netdb.Status.NO_NAME, asked.pins, netdb.Net("/", "n"))
        refused(netdb.Status.NO_PATH, asked.nets, "i")
        first = asked.pins(m)
        next(first)
        asked.pins(a)
        try:
            next(first)
            sys.exit("calls.py: a list goes on behind another")
        except RuntimeError:
            pass


def main():
    count = int(sys.argv[1]) if len(sys.argv) > 1 else 10
    draw = random.Random(int(sys.argv[2]) if len(sys.argv) > 2 else 1)
    conflict()
    questions()
    with tempfile.TemporaryDirectory() as folder:
        steps = sum(compare(draw, folder) for _ in range(count))
    print(f"calls.py: {count} scripts of {steps} steps by command and by library: the same")


main()
