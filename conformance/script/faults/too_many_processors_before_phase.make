# The 65th processor stands in the line before a phase begins.
print("boot 256 256 64 0x000000f700000044 1000")
for vp in range(64):
    print(f"1.{vp} interrupt")
print("1.64 interrupt")
print("phase")
print("1.0 interrupt")
