def less(percent=10):
    def reduced(price):
        return price - price * percent // 100
    return reduced

half = less(50)
little = less()
print(half(saw.price), little(saw.price))

def cost(article):
    try:
        return f'costs {article.cost}'
    except Unauthorized as refused:
        return f'not without {refused}'
    finally:
        print('asked')

print(cost(saw))
try:
    saw.price = 1
except (Unauthorized, ForbiddenAttribute) as refused:
    print('nobody may set', refused)
else:
    print('cheap')
