"""The netdb database for Python, by ctypes over libnetdb.so, which `./build` makes beside libnetdb_c.a. It wants no other package.

    with Netdb.open("design.edif") as db, db.pin(seat=0) as pin:
        with pin.transaction() as tx:
            tx.line("add-net work top n")
        for item in pin.view().walk():
            print(item.kind, item.path)

A handle is in one call at a time: callers in threads put a lock of their own round the calls on a database. A view needs no lock but its own,
and neither do questions.
NETDB_LIBRARY in the environment names another library than the one beside this file."""

from __future__ import annotations

import ctypes
import enum
import os
from collections.abc import Callable, Iterator, Sequence
from dataclasses import dataclass

INTERFACE = 1


class Status(enum.IntEnum):
    """What a call answers; the numbers are those of netdb.h."""

    DONE = 0
    WRONG_USE = 1
    BAD_DESIGN = 2
    BAD_LINE = 3
    CONFLICT = 4
    LOG_FULL = 5
    NO_MEMORY = 6
    END = 7
    NO_TOP = 8
    TOO_LARGE = 9
    NO_VERSION = 10
    GONE = 11
    NO_PATH = 12
    WRITE_FAULT = 13
    NO_FIELD = 14
    STOPPED = 15
    TEXT_LOST = 16
    NO_NAME = 17
    NO_NET = 18
    APART = 19


class NetdbError(Exception):
    """A call that was not done, with its status and its number: the last version, or the least that is kept."""

    def __init__(self, status: Status, number: int = 0, text: str = "") -> None:
        super().__init__(text or status.name.lower().replace("_", " "))
        self.status, self.number = status, number


class BadDesign(NetdbError):
    """The bytes mean no design. `kind` says what is wrong, and `byte` at which of them."""

    def __init__(self, text: str) -> None:
        super().__init__(Status.BAD_DESIGN, 0, text)
        self.kind, _, place = text.partition(" at ")
        self.byte = int(place.split()[0]) if place else None


class Conflict(NetdbError):
    """A commit met a later one. `object` is what both touch, empty where there was no memory for it, and `version` the later one's."""

    def __init__(self, text: str, version: int) -> None:
        super().__init__(Status.CONFLICT, version, text.strip())
        self.object, self.version = " ".join(text.split()[1:-2]), version


class _Handle(ctypes.Structure):
    _fields_ = [("is_open", ctypes.c_bool), ("inside", ctypes.c_void_p)]


_TAKE = ctypes.CFUNCTYPE(ctypes.c_int, ctypes.c_void_p, ctypes.c_void_p, ctypes.c_size_t)


def _load() -> ctypes.CDLL:
    beside = os.path.join(os.path.dirname(os.path.realpath(__file__)), "libnetdb.so")
    library = ctypes.CDLL(os.environ.get("NETDB_LIBRARY", beside))
    library.netdb_text.restype = ctypes.c_size_t
    if library.netdb_interface() != INTERFACE:
        raise ImportError(f"libnetdb has interface {library.netdb_interface()}, and this file wants {INTERFACE}")
    return library


_library = _load()


class _Owner:
    """What holds a handle, and closes it."""

    def __init__(self) -> None:
        self._handle = _Handle()

    def close(self) -> None:
        _library.netdb_close(ctypes.byref(self._handle))

    def __exit__(self, *_: object) -> None:
        self.close()

    def __del__(self) -> None:
        self.close()

    def _text(self) -> str:
        """The text of the last call that has one. A byte is a character."""
        length = _library.netdb_text(ctypes.byref(self._handle), None, ctypes.c_size_t(0))
        room = ctypes.create_string_buffer(length + 1)
        _library.netdb_text(ctypes.byref(self._handle), room, ctypes.c_size_t(length))
        return room.raw[:length].decode("latin-1")

    def _ask(self, name: str, *words: object, also: Status = Status.DONE, number: ctypes.c_uint64 | None = None) -> Status:
        """Makes a call, which is to be done or to answer this as well, with the number that it gives, where it gives one."""
        places = () if number is None else (ctypes.byref(number),)
        status = Status(getattr(_library, name)(ctypes.byref(self._handle), *words, *places))
        if status in (Status.DONE, also):
            return status
        if status == Status.BAD_DESIGN:
            raise BadDesign(self._text())
        told = 0 if number is None else number.value
        raise Conflict(self._text(), told) if status == Status.CONFLICT else NetdbError(status, told)

    def _number(self, name: str, *words: object) -> int:
        number = ctypes.c_uint64()
        self._ask(name, *words, number=number)
        return number.value

    def _hand_on(self, name: str, take: Callable[[bytes], object], *words: object) -> None:
        """Hands the pieces of a text to a function. What it raises stops the call, and is raised again."""
        raised: list[BaseException] = []

        def on(_: object, at: int, length: int) -> int:
            try:
                take(ctypes.string_at(at, length))
            except BaseException as error:
                raised.append(error)
            return len(raised)

        status = Status(getattr(_library, name)(ctypes.byref(self._handle), *words, _TAKE(on), None))
        if raised:
            raise raised[0]
        if status != Status.DONE:
            raise NetdbError(status)


@dataclass(frozen=True)
class Item:
    """An item of a flattening: its line, and the fields that it has."""

    line: str
    kind: str
    path: str
    library: str | None
    cell: str | None
    net: str | None
    port: str | None
    bit: str | None
    direction: str | None
    first_path: str | None
    first_net: str | None


class View(_Owner):
    """A version of a design, which stays readable when its database is closed."""

    def __enter__(self) -> View:
        return self

    @property
    def version(self) -> int:
        return self._number("netdb_view_version")

    def lines(self, path: Sequence[int] | None = None) -> Iterator[str]:
        """The lines of the items, one by one: of all, or at and below the occurrence at a path, a row of places of instances."""
        if path is None:
            self._ask("netdb_walk")
        else:
            self._ask("netdb_walk_at", (ctypes.c_uint32 * len(path))(*path), ctypes.c_size_t(len(path)))
        while self._ask("netdb_next", also=Status.END) == Status.DONE:
            yield self._text()

    def walk(self, path: Sequence[int] | None = None) -> Iterator[Item]:
        """The same with their fields."""
        for line in self.lines(path):
            yield Item(line, *map(self._field, range(10)))

    def _field(self, which: int) -> str | None:
        return self._text() if self._ask("netdb_view_field", ctypes.c_int(which), also=Status.NO_FIELD) == Status.DONE else None

    def write(self, take: Callable[[bytes], object], what: str = "edif") -> None:
        """Hands a text to a function piece by piece: `edif`, `flat`, `csv`, `erc` or `uses`."""
        self._hand_on("netdb_write", take, ctypes.c_int(("edif", "flat", "csv", "erc", "uses").index(what)))

    def whole(self, what: str = "edif") -> bytes:
        """A text in one piece."""
        pieces: list[bytes] = []
        self.write(pieces.append, what)
        return b"".join(pieces)


class Role(enum.IntEnum):
    """As what a pin stands at its net."""

    ANY = 0
    DRIVERS = 1
    LOADS = 2


@dataclass(frozen=True)
class Instance:
    """An occurrence: its path, its library and cell, and its effective properties as the line has them."""

    path: str
    library: str
    cell: str
    properties: str


@dataclass(frozen=True)
class Net:
    """A net, by the path of its occurrence and its name there."""

    path: str
    name: str


@dataclass(frozen=True)
class NetPin:
    """A pin of a net: a bit of a port of the top, or of a leaf below it."""

    path: str
    port: str
    bit: int


class Questions(_Owner):
    """What is asked of a version without walking it. Paths are texts, as `core/alu/add_7`, or `/` for the top; nets and ports go by their
    names. Where there is no such occurrence, net, port or bit, a call raises NetdbError with NO_PATH or NO_NAME. Questions stay when their
    database is closed."""

    def __init__(self) -> None:
        super().__init__()
        self._lists = 0

    def __enter__(self) -> Questions:
        return self

    @property
    def version(self) -> int:
        return self._number("netdb_ask_version")

    @staticmethod
    def _words(*texts: str) -> list[object]:
        """Texts as a call takes them. A character is a byte."""
        return [word for text in texts for word in (text.encode("latin-1"), ctypes.c_size_t(len(text)))]

    def _net(self, name: str, *words: object) -> Net | None:
        """The net that answers a question; none where no net joins the bit."""
        if self._ask(name, *words, also=Status.NO_NET) == Status.NO_NET:
            return None
        return Net(*self._text().split()[1:3])

    def _list(self, name: str, *words: object) -> Iterator[list[str]]:
        """Begins a list, and gives the words of one item after another, each without the first word."""
        self._ask(name, *words)
        self._lists += 1
        return self._rest(self._lists)

    def _rest(self, number: int) -> Iterator[list[str]]:
        while number == self._lists:
            if self._ask("netdb_ask_next", also=Status.END) == Status.END:
                return
            yield self._text().rstrip("\n").split(" ")[1:]
        raise RuntimeError("another list was begun before the end of this one")

    def at(self, path: str) -> Instance:
        """What is at a path."""
        self._ask("netdb_ask_at", *self._words(path))
        return _instance(self._text().rstrip("\n").split(" ")[1:])

    def net_of(self, path: str, port: str, bit: int = 0) -> Net | None:
        """The first of the nets that are connected with the one at a pin, seen from outside; none where no net joins it."""
        return self._net("netdb_ask_net_of", *self._words(path, port), ctypes.c_uint32(bit))

    def inner_net_of(self, path: str, port: str, bit: int = 0) -> Net | None:
        """The same, seen from inside the occurrence."""
        return self._net("netdb_ask_inner_net_of", *self._words(path, port), ctypes.c_uint32(bit))

    def first_of(self, net: Net) -> Net:
        """The first of the nets that are connected with a net."""
        self._ask("netdb_ask_first_of", *self._words(net.path, net.name))
        return Net(*self._text().split()[1:3])

    def is_same(self, one: Net, other: Net) -> bool:
        """Whether two nets are connected."""
        return self._ask("netdb_ask_same", *self._words(one.path, one.name, other.path, other.name), also=Status.APART) == Status.DONE

    def pins(self, net: Net, role: Role = Role.ANY) -> Iterator[NetPin]:
        """The pins of a net through all levels, in path order, each found when it is asked for. One such list goes on at a time."""
        words = self._list("netdb_ask_pins", *self._words(net.path, net.name), ctypes.c_int(role))
        return (NetPin(path, port, int(bit)) for path, port, bit, *_ in words)

    def drivers(self, net: Net) -> Iterator[NetPin]:
        """Those that drive the net."""
        return self.pins(net, Role.DRIVERS)

    def loads(self, net: Net) -> Iterator[NetPin]:
        """Those that the net loads."""
        return self.pins(net, Role.LOADS)

    def insts(self, path: str = "/") -> list[Instance]:
        """The occurrences right below one, in the order of its contents."""
        return [_instance(words) for words in self._list("netdb_ask_insts", *self._words(path))]

    def nets(self, path: str = "/") -> list[tuple[Net, Net]]:
        """The nets of an occurrence, each with the first of those that are connected with it."""
        return [(Net(*words[:2]), Net(*words[2:])) for words in self._list("netdb_ask_nets", *self._words(path))]


def _instance(words: list[str]) -> Instance:
    return Instance(words[0], words[1], words[2], " ".join(words[3:]))


class Transaction:
    """A transaction of a seat. As a context manager it commits at its end, where it is not over by then; where an exception comes, or a
    conflict, it is abandoned."""

    def __init__(self, db: Netdb, seat: ctypes.c_uint32) -> None:
        self._db, self._seat, self._is_over = db, seat, False
        self.version: int | None = None
        db._ask("netdb_begin", seat)

    def line(self, line: str | bytes) -> str:
        """Runs one line of a script's transaction, and gives its reply, which may be a refusal."""
        data = line.encode("latin-1") if isinstance(line, str) else line
        self._db._ask("netdb_line", self._seat, data, ctypes.c_size_t(len(data)))
        return self._db._text()

    def commit(self) -> int:
        self.version = self._db._number("netdb_commit", self._seat)
        self._is_over = True
        return self.version

    def abandon(self) -> None:
        self._db._ask("netdb_abandon", self._seat)
        self._is_over = True

    def __enter__(self) -> Transaction:
        return self

    def __exit__(self, kind: object, *_: object) -> None:
        try:
            if kind is None and not self._is_over:
                self.commit()
        finally:
            if not self._is_over:
                self.abandon()


class Pin:
    """A pin of a seat. As a context manager it is released at its end, where it is not by then."""

    def __init__(self, db: Netdb, seat: int, version: int) -> None:
        self._db, self._seat, self._is_over, self.version = db, ctypes.c_uint32(seat), False, version

    def transaction(self) -> Transaction:
        return Transaction(self._db, self._seat)

    def view(self) -> View:
        view = View()
        view._ask("netdb_view_open", ctypes.byref(self._db._handle), self._seat)
        return view

    def questions(self) -> Questions:
        questions = Questions()
        questions._ask("netdb_ask_open", ctypes.byref(self._db._handle), self._seat)
        return questions

    def release(self) -> None:
        self._db._ask("netdb_release", self._seat)
        self._is_over = True

    def __enter__(self) -> Pin:
        return self

    def __exit__(self, *_: object) -> None:
        if not self._is_over:
            self.release()


class Netdb(_Owner):
    """A database of a design, with 64 seats, each a caller of its own."""

    def __init__(self, design: bytes) -> None:
        super().__init__()
        self._ask("netdb_open", design, ctypes.c_size_t(len(design)))

    @classmethod
    def open(cls, path: str | os.PathLike[str]) -> Netdb:
        with open(path, "rb") as file:
            return cls(file.read())

    def __enter__(self) -> Netdb:
        return self

    def pin(self, version: int | None = None, *, seat: int = 0) -> Pin:
        """Pins the last version, or that one, for a seat."""
        if version is None:
            return Pin(self, seat, self._number("netdb_pin", ctypes.c_uint32(seat)))
        return Pin(self, seat, self._number("netdb_pin_at", ctypes.c_uint32(seat), ctypes.c_uint64(version)))

    def collect(self, *, seat: int = 0) -> int:
        """Drops the versions that no seat holds, all but the last one, and gives how many."""
        return self._number("netdb_collect", ctypes.c_uint32(seat))

    def report(self) -> bytes:
        """The history of all seats and the last version, as `netdb run` reports them, without transcripts."""
        pieces: list[bytes] = []
        self._hand_on("netdb_report", pieces.append)
        return b"".join(pieces)
