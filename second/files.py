"""Pages: a payload in a file of whole pages, each with its length and check."""

from refusal import Refusal

PAGE_SIZE = 512
PAYLOAD_SIZE = 508
PAYLOAD_AT = 2
CHECK_AT = 510
MOST_PAGES = 8


def check_of(page, number):
    words = (int.from_bytes(page[at:at + 2], "little") for at in range(0, CHECK_AT, 2))
    return (sum(words) + number) % 2**16


def sealed(page, number):
    """The page with the check that belongs to its other bytes."""
    return page[:CHECK_AT] + check_of(page, number).to_bytes(2, "little")


def pages_of(payload):
    """The file that holds a payload, whatever the payload is."""
    file = b""
    for number, at in enumerate(range(0, len(payload), PAYLOAD_SIZE)):
        piece = payload[at:at + PAYLOAD_SIZE]
        page = len(piece).to_bytes(2, "little") + piece
        file += sealed(page.ljust(PAGE_SIZE, b"\0"), number)
    return file


def payload_of(file):
    """What a file holds, or the refusal of its first bad page."""
    count, rest = divmod(len(file), PAGE_SIZE)
    if rest or not 1 <= count <= MOST_PAGES:
        raise Refusal(1, 0)
    payload = b""
    for number in range(count):
        page = file[number * PAGE_SIZE:(number + 1) * PAGE_SIZE]
        payload += payload_of_page(page, number, is_last=number == count - 1)
    return payload


def payload_of_page(page, number, is_last):
    if int.from_bytes(page[CHECK_AT:], "little") != check_of(page, number):
        raise Refusal(2, number)
    length = int.from_bytes(page[:PAYLOAD_AT], "little")
    shortest = 1 if is_last else PAYLOAD_SIZE
    if not shortest <= length <= PAYLOAD_SIZE or any(page[PAYLOAD_AT + length:CHECK_AT]):
        raise Refusal(3, number)
    return page[PAYLOAD_AT:PAYLOAD_AT + length]
