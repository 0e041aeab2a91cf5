# 64 processors in the first phase, 65 in the second.
print("boot 256 256 64 0x000000f700000044 1000")
for vp in range(64):
    print(f"1.{vp} interrupt")
print("phase")
for vp in range(64):
    print(f"1.{vp} interrupt")
print("1.64 interrupt")
