total = 0
total = = root.size
