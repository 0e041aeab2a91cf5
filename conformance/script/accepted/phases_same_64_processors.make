# The same 64 processors in three phases, in another order in the second and written in another way in the third; in
# each some are named again.
print("boot 256 256 64 0x000000f700000044 1000")
for vp in range(64):
    print(f"1.{vp} rdmsr 0x40000002")
print("1.0 interrupt")
print("phase")
for vp in reversed(range(64)):
    print(f"1.{vp} rdmsr 0x40000002")
print("1.63 interrupt")
print("1.31 interrupt")
print("phase")
for vp in range(64):
    print(f"01.0{vp} rdmsr 0x40000002")
print("1.5 interrupt")
