# 128 processors: in the first phase the 64 of the root make 64 of a child, which run in the second.
print("boot 1024 512 64 0x000000f700000044 1000")
print("1.0 call 0x40 0 0 -")
print("1.0 call 0x0000010000000048 0 0", b"".join(at.to_bytes(8, "little") for at in (2, *range(512, 768))).hex())
print("1.0 call 0x10041 2 0 -")
for vp in range(64):
    print(f"1.{vp} call 0x1004e 2 {vp} -")
print("phase")
for vp in range(64):
    print(f"2.{vp} rdmsr 0x40000002")
