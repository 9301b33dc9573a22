def total(orders, rate=1):
    """The sum of all orders that count."""
    found = 0
    for order in orders:
        if order.count > 0:
            found += order.price * order.count * rate
    return found

names = [order.name.strip() for order in site.orders if order]
try:
    print(total(site.orders, rate=2), ', '.join(names))
except Unauthorized as refused:
    print('not for you:', refused)
