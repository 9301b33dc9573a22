leaflet.write('Open from 9 to 5')
leaflet.submit()
leaflet.write(leaflet.text + ', on Saturdays to 1')
leaflet.submit()
