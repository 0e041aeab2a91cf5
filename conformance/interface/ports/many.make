# 200 ports and 200 connections of the root with scattered ids. Each taken id is refused, each that is deleted is free
# again, and in the end all pages are back. The ports are for messages and for event flags in turn.
COUNT = 200


def fields(*pairs):
    """Fields of so many bytes each, the lowest byte first: VALUE, BYTES .."""
    return "".join(value.to_bytes(size, "little").hex() for value, size in zip(pairs[::2], pairs[1::2]))


def port_id(at):
    return at * 6700417 + 12345 & 0xFFFFFF


def connection_id(at):
    return at * 5882353 + 99 & 0xFFFFFF


def make(at, kind, sint, base, count):
    of_root = fields(1, 8, port_id(at), 4, 0, 4, 1, 8)
    print("1.0 call 0x95 0x3fe000 0", of_root + fields(kind, 4, 0, 4, sint, 4, 0, 4, base, 2, count, 2, 0, 4))


def connect(at, port, kind):
    print("1.0 call 0x96 0x3fe000 0", fields(1, 8, connection_id(at), 4, 0, 4, 1, 8, port_id(port), 4, 0, 4, kind, 4))


def delete(at):
    print("1.0 call 0x10058 1", port_id(at), "-")


def disconnect(at):
    print("1.0 call 0x1005b 1", connection_id(at), "-")


def balance():
    print("1.0 call 0x4a 0x3fe000 0x3ff000", fields(1, 8))


print("boot 1024 600 1 0x000000f700000044 10000")
balance()
for at in range(COUNT):
    make(at, 1 + at % 2, at % 16, at, 8)
balance()
for at in range(COUNT):
    make(at, 2 - at % 2, 0, 0, 1)
for at in range(COUNT):
    connect(at, at * 7 % COUNT, 1 + at * 7 % COUNT % 2)
balance()
for at in range(COUNT):
    connect(at, at, 1 + at % 2)
balance()
# Every third port is deleted; it is made again where it is gone, and refused where it is there.
for at in range(COUNT):
    if at * 77 % COUNT % 3 == 0:
        delete(at * 77 % COUNT)
balance()
for at in range(COUNT):
    make(at, 1, 0, 0, 0)
balance()
# So is every second connection.
for at in range(COUNT):
    if at * 99 % COUNT % 2:
        disconnect(at * 99 % COUNT)
balance()
for at in range(COUNT):
    connect(at, at, 1 + at % 2 if at % 3 else 1)
balance()
for at in range(COUNT):
    delete(at * 3 % COUNT)
    disconnect(at * 11 % COUNT)
balance()
for at in 0, COUNT - 1:
    delete(at)
    disconnect(at)
