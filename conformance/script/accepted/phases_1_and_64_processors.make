# One processor in the first phase, and 64 others in the second, of which one is not there.
print("boot 256 256 64 0x000000f700000044 1000")
print("1.0 interrupt")
print("phase")
for vp in range(1, 65):
    print(f"1.{vp} interrupt")
