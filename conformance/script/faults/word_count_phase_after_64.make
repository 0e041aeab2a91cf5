# phase with a word too many after 64 processors, and before the 65th.
print("boot 256 256 64 0x000000f700000044 1000")
for vp in range(64):
    print(f"1.{vp} interrupt")
print("phase 2")
print("1.64 interrupt")
