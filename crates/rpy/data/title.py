print(root.title)
