news.visits = news.visits + 1
print(news.visits, home.title)
news.title = "Old news"
