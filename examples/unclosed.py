print(root.title
