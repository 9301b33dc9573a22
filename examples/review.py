def reviewed(document, least=20):
    """What comes of a document that waits for review."""
    if document.state != 'review':
        return f'{document.title} does not wait'
    if len(document.text) < least:
        document.reject('too short')
    else:
        document.accept()
    return f'{document.title} is now {document.state}'

print(reviewed(leaflet))
print(reviewed(leaflet))
