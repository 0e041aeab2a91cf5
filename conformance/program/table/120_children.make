# 120 children of the root, with ids of one, two and three digits and 0 to 3 pages each. Every third is deleted; of the
# others every seventh is finalized, and every fifth that is left is initialized.
IDS = range(2, 122)

print("boot 700 250 1 0x000000f700000044 1000")
for _ in IDS:
    print("1.0 call 0x40 0x2ba000 0x2bb000 -")
page = 250
for id in IDS:
    for _ in range(id % 4):
        block = id.to_bytes(8, "little") + page.to_bytes(8, "little")
        print("1.0 call 0x0000000100000048 0x2ba000 0", block.hex())
        page += 1
for id in IDS:
    if id % 3 == 0:
        print(f"1.0 call 0x10043 {id} 0 -")
    elif id % 7 == 0:
        print(f"1.0 call 0x10042 {id} 0 -")
    elif id % 5 == 0:
        print(f"1.0 call 0x10041 {id} 0 -")
