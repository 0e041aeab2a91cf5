# A script of 1,048,577 bytes, one more than it may have: it is refused, and never cut and run.
START = "boot 32 12 1 0x000000f700000044 1000\n1.0 call 0x46 0 0 -\n# "
print(START + "." * (1048577 - len(START)), end="")
