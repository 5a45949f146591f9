"""Answers a request stream: python3 second/answer.py < stream > answers"""

import sys

import calls
from refusal import Refusal
from stream import COMPILE, READ, WRITE, BadRequest, Bytes, Run, requests

# Every buffer starts as this pattern, so that an answer shows what a call left alone.
UNTOUCHED_BYTE = 0xAA
UNTOUCHED_WORD = int.from_bytes([UNTOUCHED_BYTE] * 4, "little", signed=True)

BYTE_CALLS = {READ: calls.read, WRITE: calls.write, COMPILE: calls.compile}


def answer(request):
    if isinstance(request, Bytes):
        return answer_bytes(request)
    if isinstance(request, Run):
        return answer_run(request)
    return in_decimal(calls.find(*request))


def answer_bytes(request):
    buffer = bytearray([UNTOUCHED_BYTE]) * request.room
    reply = reply_of(BYTE_CALLS[request.kind], request.data, buffer)
    return f"{reply} {buffer.hex() or '-'}"


def answer_run(request):
    result = [UNTOUCHED_WORD] * request.result_room
    working = [UNTOUCHED_WORD] * request.working_room
    reply = reply_of(calls.run, request.plan, request.rows, request.values, request.budgets, request.quota,
                     result, working)
    return f"{reply} | {in_decimal(result)} | {in_decimal(working)}"


def reply_of(call, *inputs):
    try:
        return f"ok {call(*inputs)}"
    except Refusal as refusal:
        return str(refusal)


def in_decimal(words):
    return " ".join(map(str, words)) or "-"


def main():
    try:
        for request in requests(sys.stdin.buffer.read()):
            print(answer(request))
    except BadRequest:
        print("end")


if __name__ == "__main__":
    main()
