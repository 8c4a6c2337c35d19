// prints two lines: first 42, then 1042
print(print(40 + 2) + 1000)
