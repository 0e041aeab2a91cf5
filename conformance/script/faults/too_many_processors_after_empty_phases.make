# The phases before that of 65 processors are empty.
print("boot 256 256 64 0x000000f700000044 1000")
print("phase")
print("phase")
print("phase")
for vp in range(64):
    print(f"1.{vp} interrupt")
print("1.64 interrupt")
