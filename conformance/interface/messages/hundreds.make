# 160 messages of 20 ports are kept at three SINTs of one processor, mixed; then they are shown one after another. With
# each SINT at its fullest the ninth of each port is refused. Its audit was not worked out by hand: two programs agree on
# it, of which one was written from docs/POLICY.md alone.


def fields(*pairs):
    """Fields of so many bytes each, the lowest byte first: VALUE, BYTES .."""
    return "".join(value.to_bytes(size, "little").hex() for value, size in zip(pairs[::2], pairs[1::2]))


def post(port, turn):
    payload = (0xA0 + port) << 16 | 0xB000 | 0xC0 + turn
    kind = (port + 1) << 16 | (turn + 1) * 17
    print("1.0 call 0x5c 0x9e000 0", fields(0xC000 + port, 4, 0, 4, kind, 4, 3, 4, payload, 3))


print("boot 160 80 2 0x000000f700000044 10000")
for port in range(20):
    sint = port % 3 * 6 + 1
    print("1.0 call 0x95 0x9e000 0", fields(1, 8, 0xD00000 + port, 4, 0, 4, 1, 8, 1, 4, 0, 4, sint, 4, 1, 4, 0, 8))
    print("1.0 call 0x96 0x9e000 0", fields(1, 8, 0xC000 + port, 4, 0, 4, 1, 8, 0xD00000 + port, 4, 0, 4, 1, 4))
for words in "0x40000080 1", "0x40000083 1", "0x40000091 0x91", "0x40000097 0x97", "0x4000009d 0x9d":
    print("1.1 wrmsr", words)
for turn in range(8):
    for place in range(20):
        post(place * 7 % 20, turn)
for port in range(20):
    post(port, 8)
for turn in range(57):
    for sint in 1, 7, 13:
        print(f"1.1 slot {sint}")
        print(f"1.1 clearslot {sint}")
    print("1.1 interrupt")
    print("1.1 wrmsr 0x40000084 0")
print("1.1 interrupt\n" * 4, end="")
