# A script of 1,048,576 bytes, the most it may have: nearly all of it is one comment, and its last line is a call.
START = "boot 32 12 1 0x000000f700000044 1000\n1.0 call 0x46 0 0 -\n# "
END = "\n1.0 call 0x4a 0 0 0100000000000000\n"
print(START + "." * (1048576 - len(START) - len(END)) + END, end="")
