# A long mixed history: four processors of two partitions post, signal, read, clear and take, by connections that are
# there and by some that are not, while registers, ports, connections and processors change. What comes next is worked
# out from a number that each step changes. Its audit was not worked out by hand: two programs agree on it, of which one
# was written from docs/POLICY.md alone.
WITH_ABSENT = globals().get("WITH_ABSENT", False)  # whether processors that aren't there speak, too: no_guest/messages_many
BOTH = {"1.0": "0x9e000 0x9f000", "1.1": "0x9c000 0x9d000", "2.0": "0x9a000 0x9b000", "2.1": "0x98000 0x99000"}
INPUT = {by: pages.split()[0] + " 0" for by, pages in BOTH.items()}
PROCESSORS = list(BOTH)
state = 20041
there = {"1.0", "1.1"}


def fields(*pairs):
    """Fields of so many bytes each, the lowest byte first: VALUE, BYTES .."""
    return "".join(value.to_bytes(size, "little").hex() for value, size in zip(pairs[::2], pairs[1::2]))


def below(limit):
    """A number below a limit."""
    global state
    state = state * 1103515245 + 12345 & 0x7FFFFFFF
    return (state >> 12) % limit


def say(by, *words):
    if by in there or WITH_ABSENT:
        print(by, *words)


def make_processor(by):
    say("1.0", "call 0x1004e", *by.split("."), "-")
    there.add(by)


def delete_processor(by):
    say("1.0", "call 0x1004f", *by.split("."), "-")
    there.discard(by)


def make_port(at):
    """Makes port AT, 0 to 15, which is the same each time: its partition, peer, type and place follow from AT."""
    part, peer, kind = 1 + at // 8, 1 + at // 4 % 2, 1 + at % 2
    where = fields(at % 3 * 7, 4, at // 2 % 2, 4, at * 96, 2, 40, 2, 0, 4)
    say("1.0", "call 0x95", INPUT["1.0"], fields(part, 8, 0xF0 + at, 4, 0, 4, peer, 8, kind, 4, 0, 4) + where)


def connect(at):
    """Makes the connection to port AT."""
    part, port_part, kind = 1 + at // 4 % 2, 1 + at // 8, 1 + at % 2
    port = fields(port_part, 8, 0xF0 + at, 4, 0, 4, kind, 4)
    say("1.0", "call 0x96", INPUT["1.0"], fields(part, 8, 0xA0 + at, 4, 0, 4) + port)


def delete_port(at):
    say("1.0", "call 0x10058", 1 + at // 8, 0xF0 + at, "-")


def disconnect(at):
    say("1.0", "call 0x1005b", 1 + at // 4 % 2, 0xA0 + at, "-")


def ready(by):
    """Enables all that a processor has, with vectors at the SINTs 0, 7 and 14."""
    for register in 0x40000080, 0x40000082, 0x40000083:
        say(by, f"wrmsr {register:#x} 1")
    for sint in 0, 7, 14:
        say(by, f"wrmsr {0x40000090 + sint:#x} {below(224) + 0x20:#x}")


def choose(part, kind):
    """One of the eight connections of a partition, mostly to a port of the type."""
    number = below(8)
    line = (number & 4) << 1 | (part - 1) << 2 | number & 2 | kind - 1
    number = below(12)
    if number == 0:
        return line ^ 1
    if number == 1:
        return line ^ 4
    return line | 16 if number == 2 else line


def post(by, step):
    line = choose(int(by[0]), 1)
    number = below(12)
    for many in range(1 if number < 8 else number - 2, 0, -1):
        size = below(24)
        head = fields(0xA0 + line, 4, 0, 4, below(0x7FFFFF) * 256 + 1, 4, size, 4)
        payload = bytes(step * 7 + many * 16 + at * 45 + 0x81 & 0xFF for at in range(size))
        say(by, "call 0x5c", INPUT[by], head + payload.hex())


def signal(by, step):
    line = choose(int(by[0]), 2)
    flag = below(42)
    if step % 2:
        say(by, f"call 0x1005d {0xA0 + line | flag << 32:#x} 0 -")
    else:
        say(by, "call 0x5d", INPUT[by], fields(0xA0 + line, 4, flag, 2))


def end_of_message():
    """A write of EOM by a call, at one of the four processors."""
    part, vp = map(int, PROCESSORS[below(4)].split("."))
    element = fields(0xA0014, 4, 0, 4, 0, 8, 7, 8, 0, 8)
    say("1.0", "call 0x0000000100000051", INPUT["1.0"], fields(part, 8, vp, 4, 0, 4) + element)


def disable(by):
    """Disables something of a processor, mostly for a short time; other processors that are gone come back."""
    say(by, f"wrmsr {(0x40000080, 0x40000082, 0x40000083)[below(3)]:#x} 2")
    if below(3) >= 2:
        ready(by)
    for other in PROCESSORS:
        if below(3) == 0:
            make_processor(other)
            ready(other)


def change_link(line):
    """A port goes, and mostly comes again; often its connection does, too."""
    delete_port(line)
    number = below(4)
    if number != 0:
        make_port(line)
    if number > 1:
        disconnect(line)
        connect(line)


def mask(by, sint):
    number = below(256)
    say(by, f"wrmsr {0x40000090 + sint:#x} {number | (0 if number & 3 else 0x10000):#x}")


def act(by, step):
    """What a processor does in a step."""
    what, line, sint = below(100), below(16), below(3) * 7
    if what < 34:
        post(by, step)
    elif what < 54:
        signal(by, step)
    elif what < 60:
        say(by, "slot", sint)
    elif what < 68:
        say(by, "clearslot", sint)
    elif what < 70:
        say(by, "flags", sint)
    elif what < 74:
        say(by, "clearflag", sint, below(2048))
    elif what < 83:
        say(by, "interrupt")
    elif what < 88:
        say(by, "wrmsr 0x40000084 0")
    elif what < 90:
        end_of_message()
    elif what < 93:
        mask(by, sint)
    elif what < 95:
        disable(by)
    elif what < 97:
        change_link(line)
    elif what < 99:
        make_port(line)
        disconnect(line)
        connect(line)
    elif by != "1.0":
        delete_processor(by)
        if below(3):
            make_processor(by)
            ready(by)


print("boot 160 60 2 0x000000f700000044 10000")
say("1.0", "call 0x40", BOTH["1.0"], "-")
say("1.0", "call 0x45", INPUT["1.0"], fields(2, 8, 0x10000, 4, 0, 4, 0xF700000044, 8))
say("1.0", "call 0x10041 2 0 -")
pages = "".join(fields(page, 8) for page in range(60, 100))
say("1.0", "call 0x0000002800000048", INPUT["1.0"], fields(2, 8) + pages)
make_processor("2.0")
make_processor("2.1")
for at in range(16):
    make_port(at)
    connect(at)
for by in PROCESSORS:
    ready(by)
for step in range(900):
    act(PROCESSORS[below(4)], step)
# What is there in the end, and the rest of what waits.
for by in PROCESSORS:
    make_processor(by)
    ready(by)
    for sint in 0, 7, 14:
        say(by, "flags", sint)
        say(by, "slot", sint)
    for _ in range(3):
        for sint in 0, 7, 14:
            say(by, "clearslot", sint)
        say(by, "wrmsr 0x40000084 0")
        for sint in 0, 7, 14:
            say(by, "slot", sint)
        say(by, "interrupt")
for part in 1, 2:
    say("1.0", "call 0x4a", BOTH["1.0"], fields(part, 8))
