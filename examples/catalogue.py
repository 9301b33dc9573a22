lengths = {}
for article in catalogue.articles:
    lengths[article] = len(article)
print(catalogue.title, lengths)
print(saw.tags[-1], saw.price * 2)
print(f'costs {saw.cost}')
