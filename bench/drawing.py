"""SVG, as far as pictures.py and layers.py need it."""

COLOURS = ["#1f6f8b", "#c8553d", "#6a994e", "#7b4b94", "#b08900", "#4a4e69"]
FONT = 'font-family="DejaVu Sans, Helvetica, Arial, sans-serif"'


class Drawing:
    def __init__(self, width, height, title):
        self.width, self.height = width, height
        self.parts = ['<svg xmlns="http://www.w3.org/2000/svg" viewBox="0 0 %d %d" %s font-size="13">' % (width, height, FONT)]
        self.parts.append('<rect width="100%" height="100%" fill="white"/>')
        self.text(width / 2, 24, title, anchor="middle", size=16, bold=True)

    def text(self, x, y, words, anchor="start", size=13, colour="#222", bold=False, turn=None):
        turned = ' transform="rotate(%d %.1f %.1f)"' % (turn, x, y) if turn else ""
        weight = ' font-weight="bold"' if bold else ""
        form = '<text x="%.1f" y="%.1f" text-anchor="%s" font-size="%d" fill="%s"%s%s>%s</text>'
        self.parts.append(form % (x, y, anchor, size, colour, weight, turned, words.replace("&", "&amp;").replace("<", "&lt;")))

    def line(self, x1, y1, x2, y2, colour="#ccc", width=1, dash=""):
        dashed = ' stroke-dasharray="%s"' % dash if dash else ""
        self.parts.append('<line x1="%.1f" y1="%.1f" x2="%.1f" y2="%.1f" stroke="%s" stroke-width="%.1f"%s/>' % (x1, y1, x2, y2, colour, width, dashed))

    def window(self, name, x, y, width, height):
        """What curves of this name are cut off by."""
        form = '<clipPath id="%s"><rect x="%.1f" y="%.1f" width="%.1f" height="%.1f"/></clipPath>'
        self.parts.append(form % (name, x, y, width, height))

    def curve(self, points, colour, window=None):
        path = " ".join("%.1f,%.1f" % it for it in points)
        cut = ' clip-path="url(#%s)"' % window if window else ""
        self.parts.append('<polyline points="%s" fill="none" stroke="%s" stroke-width="1.8"%s/>' % (path, colour, cut))

    def bar(self, x, y, width, height, colour):
        self.parts.append('<rect x="%.1f" y="%.1f" width="%.1f" height="%.1f" fill="%s"/>' % (x, y, width, height, colour))

    def dot(self, x, y, colour):
        self.parts.append('<circle cx="%.1f" cy="%.1f" r="4" fill="%s"/>' % (x, y, colour))

    def number(self, x, y, number, colour):
        self.parts.append('<circle cx="%.1f" cy="%.1f" r="10" fill="%s"/>' % (x, y, colour))
        self.text(x, y + 4, str(number), anchor="middle", size=11, colour="white", bold=True)

    def write(self, path):
        with open(path, "w") as it:
            it.write("\n".join([*self.parts, "</svg>"]) + "\n")
