"""A drawing as SVG text: rectangles, lines, dots, words."""
INK, FAINT, GREEN, BLUE, RED, GREY, ORANGE = "#222", "#bbb", "#2a7f4f", "#2b5fa8", "#b03a2e", "#777", "#c07a1a"


class Drawing:
    def __init__(self, width, height, title):
        self.size = (width, height)
        self.parts = [f"<title>{title}</title>", f'<rect width="{width}" height="{height}" fill="white"/>']

    def rect(self, x, y, width, height, fill, stroke="none"):
        self.parts.append(f'<rect x="{x:g}" y="{y:g}" width="{width:g}" height="{height:g}" fill="{fill}" stroke="{stroke}"/>')

    def line(self, x, y, to_x, to_y, stroke, dashes="", width=1):
        look = (f' stroke-dasharray="{dashes}"' if dashes else "") + (f' stroke-width="{width}"' if width != 1 else "")
        self.parts.append(f'<line x1="{x:g}" y1="{y:g}" x2="{to_x:g}" y2="{to_y:g}" stroke="{stroke}"{look}/>')

    def dot(self, x, y, radius, fill, opacity=1):
        self.parts.append(f'<circle cx="{x:g}" cy="{y:g}" r="{radius:g}" fill="{fill}" fill-opacity="{opacity:g}"/>')

    def ring(self, x, y, radius, stroke):
        self.parts.append(f'<circle cx="{x:g}" cy="{y:g}" r="{radius:g}" fill="none" stroke="{stroke}" stroke-width="2"/>')

    def text(self, x, y, words, size=12, anchor="start", fill=INK, bold=False):
        weight = ' font-weight="bold"' if bold else ""
        words = words.replace("&", "&amp;").replace("<", "&lt;")
        self.parts.append(f'<text x="{x:g}" y="{y:g}" font-size="{size}" text-anchor="{anchor}" fill="{fill}"{weight}>{words}</text>')

    def write(self, path):
        width, height = self.size
        head = f'<svg xmlns="http://www.w3.org/2000/svg" width="{width}" height="{height}" viewBox="0 0 {width} {height}" font-family="sans-serif">'
        path.write_text("\n".join([head, *self.parts, "</svg>"]) + "\n")
