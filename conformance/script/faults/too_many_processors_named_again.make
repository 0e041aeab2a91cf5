# 64 processors of the second phase are those of the first, the 65th is another.
print("boot 256 256 64 0x000000f700000044 1000")
for vp in range(64):
    print(f"1.{vp} interrupt")
print("phase")
for vp in reversed(range(64)):
    print(f"1.{vp} interrupt")
print("1.63 interrupt")
print("18446744073709551615.0 interrupt")
