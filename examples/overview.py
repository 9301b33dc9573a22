def line(page, width=8):
    """The title of a page, filled up to so many characters, and how often it was visited."""
    text = page.title
    while len(text) < width:
        text += ' '
    return f'{text}{page.visits}'

def renamed(page, title):
    """What came of giving a page a title."""
    try:
        page.title = title
    except Unauthorized as refused:
        return f'{page.title}: not without {refused}'
    return f'{page.title}: done'

for page in (home, news):
    print(line(page))
print(renamed(news, 'Old news'))
