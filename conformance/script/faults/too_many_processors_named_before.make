# A processor that an earlier phase named counts in the second phase, too: it is the 65th.
print("boot 256 256 64 0x000000f700000044 1000")
print("1.0 interrupt")
print("phase")
for vp in range(1, 65):
    print(f"1.{vp} interrupt")
print("1.0 interrupt")
