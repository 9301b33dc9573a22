class Report:
    """Sums by key, in the order in which the keys came."""
    def __init__(self, title):
        self.title = title
        self.sums = {}
    def add(self, key, cents):
        self.sums[key] = self.sums.get(key, 0) + cents
    def lines(self):
        return [f'{key}: {euros(cents)}' for key, cents in self.sums.items()]

report = Report('Turnover')
for order in orders:
    report.add(order.buyer, order.total())
print(report.title, 'of', len(orders), 'orders')
for line in report.lines():
    print(line)

print('Margins of', len(catalogue), 'articles')
try:
    for name in catalogue.names():
        print(f'{name}: {euros(catalogue[name].margin())}')
except Unauthorized as refused:
    print('not without', refused)
