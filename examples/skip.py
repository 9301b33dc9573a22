for step in ['submit', 'accept']:
    try:
        getattr(leaflet, step)()
    except Unauthorized as refused:
        print(step, 'needs', refused)
print(leaflet.state, leaflet.history[-1])
leaflet.state = 'published'
