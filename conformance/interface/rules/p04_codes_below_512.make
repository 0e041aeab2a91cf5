# P4: every code below 512 that no call has, with an input that each call would read, and then that nothing came of it.
CALLS = {*range(0x40, 0x4B), 0x4E, 0x4F, 0x50, 0x51, 0x58, 0x5B, 0x5C, 0x5D, 0x95, 0x96}

print("# P4: every code below 512 that no call has.")
print("boot 32 12 1 0x000000f700000044 1000")
for code in range(512):
    if code not in CALLS:
        print(f"1.0 call {code:#x} 0x1e000 0 01000000000000000100000000000000")
print("1.0 call 0x4a 0x1e000 0x1f000 0100000000000000")
