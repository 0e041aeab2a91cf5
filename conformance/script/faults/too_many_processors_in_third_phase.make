# 64 processors in the first phase, none in the second, 65 in the third: the last of them after the first again.
print("boot 256 256 64 0x000000f700000044 1000")
for vp in range(64):
    print(f"1.{vp} interrupt")
print("phase")
print("phase")
for vp in range(64):
    print(f"1.{vp} interrupt")
print("1.0 interrupt")
print("2.0 interrupt")
print("phase")
