# 1,280 processors, of which only those of the root are there: 64 in each of 20 phases.
print("boot 256 256 64 0x000000f700000044 10000")
for id in range(1, 21):
    for vp in range(64):
        print(f"{id}.{vp} interrupt")
    print("phase")
