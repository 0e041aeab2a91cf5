# The 65th processor of the second phase stands in a line with a bad number, which decides.
print("boot 256 256 64 0x000000f700000044 1000")
for vp in range(64):
    print(f"1.{vp} interrupt")
print("phase")
for vp in range(64):
    print(f"1.{vp} interrupt")
print("1.64 slot 256")
