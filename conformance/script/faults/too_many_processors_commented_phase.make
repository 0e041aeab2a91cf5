# A comment begins no phase: the count goes on.
print("boot 256 256 64 0x000000f700000044 1000")
for vp in range(64):
    print(f"1.{vp} interrupt")
print("#phase")
print("# phase")
print("   # phase")
print("1.64 interrupt")
