# 299 children are made one after another, and all but 9, 10, 99, 100 and 299 are deleted at once. The next has an id of
# its own, 301, and the order is that of the numbers.
print("boot 32 20 1 0x000000f700000044 1000")
for id in range(2, 301):
    print("1.0 call 0x40 0x1e000 0x1f000 -")
    if id not in (9, 10, 99, 100, 299):
        print(f"1.0 call 0x10043 {id} 0 -")
print("1.0 call 0x40 0x1e000 0x1f000 -")
