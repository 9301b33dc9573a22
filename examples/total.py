# The sum of the numbers below root.size.
total = 0
for i in range(root.size):
    total += i
print(total)
