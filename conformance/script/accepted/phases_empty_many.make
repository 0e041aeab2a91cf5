# 171,000 phases without lines, before, between and after two lines.
EMPTY = "phase\n" * 57000
print("boot 32 12 1 0x000000f700000044 1000\n" + EMPTY + "1.0 call 0x46 0 0 -\n" + EMPTY + "1.0 interrupt\n" + EMPTY, end="")
