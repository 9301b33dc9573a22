home.title = "Welcome"
for tag in news.tags:
    print(tag)
print(home.title)
