"""The request stream: requests to bytes and back."""

import struct
from typing import NamedTuple

LARGEST = 8192  # of a room, a length or a number of things

READ, WRITE, COMPILE, RUN, FIND = range(1, 6)
OWN, COMMON = range(2)  # what a run's budgets are


class BadRequest(Exception):
    """Cut short, of an unknown kind, with budgets neither common nor own, or too large."""


class Bytes(NamedTuple):
    kind: int  # READ, WRITE or COMPILE
    room: int
    data: bytes


class Run(NamedTuple):
    rows: int
    budgets: int | list  # one that is common to all rows, or their own
    quota: int
    result_room: int
    working_room: int
    plan: bytes
    values: list


class Find(NamedTuple):
    rows: int
    quota: int
    columns: int
    row: int
    result: list
    working: list


def encode(request):
    if isinstance(request, Bytes):
        return numbers(request.kind, request.room) + counted_bytes(request.data)
    if isinstance(request, Run):
        head = numbers(RUN, request.rows) + encoded_budgets(request.budgets) + numbers(*request[2:5])
        return head + counted_bytes(request.plan) + counted_words(request.values)
    return numbers(FIND, *request[:4]) + counted_words(request.result) + counted_words(request.working)


def encoded_budgets(budgets):
    if isinstance(budgets, int):
        return numbers(COMMON, budgets)
    return numbers(OWN, len(budgets), *budgets)


def numbers(*values):
    return struct.pack(f"<{len(values)}I", *values)


def counted_bytes(data):
    return numbers(len(data)) + data


def counted_words(words):
    return numbers(len(words)) + struct.pack(f"<{len(words)}i", *words)


def requests(stream):
    """Yields each request; raises BadRequest at the first that is none."""
    reader = Reader(stream)
    while reader.at < len(stream):
        kind = reader.number()
        if kind in (READ, WRITE, COMPILE):
            yield Bytes(kind, reader.size(), reader.bytes())
        elif kind == RUN:
            yield Run(reader.number(), reader.budgets(), reader.number(), reader.size(), reader.size(),
                      reader.bytes(), reader.words())
        elif kind == FIND:
            asked = [reader.number() for _ in range(4)]
            yield Find(*asked, reader.words(), reader.words())
        else:
            raise BadRequest


class Reader:
    def __init__(self, stream):
        self.stream = stream
        self.at = 0

    def take(self, count):
        if self.at + count > len(self.stream):
            raise BadRequest
        self.at += count
        return self.stream[self.at - count:self.at]

    def number(self):
        return int.from_bytes(self.take(4), "little")

    def size(self):
        size = self.number()
        if size > LARGEST:
            raise BadRequest
        return size

    def budgets(self):
        kind = self.number()
        if kind == COMMON:
            return self.number()
        if kind == OWN:
            return [self.number() for _ in range(self.size())]
        raise BadRequest

    def bytes(self):
        return self.take(self.size())

    def words(self):
        count = self.size()
        return list(struct.unpack(f"<{count}i", self.take(4 * count)))
