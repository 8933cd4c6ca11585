"""What the pictures of the pages are made of: boxes, texts and lines of SVG."""
import os

HERE = os.path.dirname(os.path.realpath(__file__))
INK, PALE, BLUE, GREEN, GREY = "#24292f", "#eef1f4", "#0b62c4", "#1a7f45", "#8c959f"


def attributes(more):
    """Attributes of SVG, whose names have hyphens."""
    return "".join(f' {name.replace("_", "-")}="{it}"' for name, it in more.items())


class Picture:
    """Lines of SVG, which start with a heading and a line below it."""

    def __init__(self, width, height, title, heading, said=""):
        self.lines = [
            f'<svg xmlns="http://www.w3.org/2000/svg" viewBox="0 0 {width} {height}" role="img"',
            f'     font-family="Helvetica, Arial, sans-serif" font-size="13">',
            f"<title>{title}</title>",
            f'<rect width="{width}" height="{height}" rx="8" fill="#ffffff"/>',
        ]
        self.text(30, 38, heading, font_size=20)
        if said:
            self.text(30, 62, said, GREY)

    def box(self, x, y, width, height, fill, **more):
        size = f'width="{width:.1f}" height="{height:.1f}"'
        self.lines.append(f'<rect x="{x:.1f}" y="{y:.1f}" {size} fill="{fill}"{attributes(more)}/>')

    def text(self, x, y, said, fill=INK, **more):
        self.lines.append(f'<text x="{x:.1f}" y="{y:.1f}" fill="{fill}"{attributes(more)}>{said}</text>')

    def line(self, x, y, to_x, to_y, stroke, **more):
        way = f"M{x:.1f} {y:.1f} L{to_x:.1f} {to_y:.1f}"
        self.lines.append(f'<path d="{way}" stroke="{stroke}"{attributes(more)}/>')

    def write(self, name):
        with open(os.path.join(HERE, name), "w", encoding="utf-8") as file:
            file.write("\n".join([*self.lines, "</svg>"]) + "\n")
