print(root.size)
print(root.secret)
