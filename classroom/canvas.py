"""Plain drawings in SVG: boxes, words and arrows, of the width of a page, light or dark as the page is."""
from html import escape

WIDTH = 760
LETTER = {"title": 17, "name": 15, "words": 14, "small": 13}
STYLE = """text{font:14px 'DejaVu Sans Mono',monospace;fill:#1d1f23}
.title{font-size:17px;font-weight:bold}
.name{font-size:15px;font-weight:bold}
.small{font-size:13px;fill:#50565f}
.number{text-anchor:middle}
.ground{fill:#fff}
.box{fill:#f4f5f8;stroke:#8b919c;stroke-width:1.6}
.process{fill:#e6f0fa;stroke:#0a5fb4;stroke-width:1.8}
.slot{fill:#fff;stroke:#50565f;stroke-width:1.3}
.held{fill:#fde3cc;stroke:#b84a00;stroke-width:1.6}
.turn{fill:#ffe28a;stroke:#7a5f00;stroke-width:2}
.one{fill:#d7ebfb;stroke:#0a5fb4;stroke-width:1.3}
.two{fill:#d6f2e4;stroke:#00784f;stroke-width:1.3}
.three{fill:#f3dff0;stroke:#8f2f80;stroke-width:1.3}
.line{stroke:#3b4049;stroke-width:1.6;fill:none}
.arrow{stroke:#3b4049;stroke-width:1.6;fill:none;marker-end:url(#head)}
.ring{stroke:#b84a00;stroke-width:2.6;fill:none;marker-end:url(#hot)}
.head{fill:#3b4049}
.hot{fill:#b84a00}
"""
DARK = """text{fill:#e8e9ec}
.small{fill:#aab0bb}
.ground{fill:#16181c}
.box{fill:#22252c;stroke:#7d848f}
.process{fill:#16293c;stroke:#7fbcff}
.slot{fill:#16181c;stroke:#aab0bb}
.held{fill:#47260c;stroke:#ff9c4a}
.turn{fill:#5a4600;stroke:#ffd75e}
.one{fill:#14304a;stroke:#7fbcff}
.two{fill:#10382a;stroke:#5ad39b}
.three{fill:#3d1f38;stroke:#e08fd3}
.line,.arrow{stroke:#c3c8d1}
.ring{stroke:#ff9c4a}
.head{fill:#c3c8d1}
.hot{fill:#ff9c4a}
"""
MARKERS = "".join(f'<marker id="{name}" viewBox="0 0 8 8" refX="7" refY="4" markerWidth="7" markerHeight="7" orient="auto">'
                  f'<path class="{name}" d="M0 0L8 4L0 8z"/></marker>' for name in ("head", "hot"))


class Canvas:
    def __init__(self, title, height):
        self.height, self.parts = height, []
        self.words(14, 28, title, "title")

    def words(self, x, y, text, kind="words", middle=False):
        self.parts.append(f'<text class="{kind}{" number" if middle else ""}" x="{x}" y="{y}">{escape(text, quote=False)}</text>')

    def box(self, x, y, width, height, kind="box", lines=(), round_by=3):
        """A box with lines of words in its middle, of which the first is its name where there are several."""
        self.parts.append(f'<rect class="{kind}" x="{x}" y="{y}" width="{width}" height="{height}" rx="{round_by}"/>')
        top = y + height / 2 - 10 * (len(lines) - 1)
        for place, line in enumerate(lines):
            self.words(x + width / 2, top + 20 * place + 5, line, "name" if place == 0 and kind in ("box", "process") else "words", True)

    def process(self, x, y, width, height, lines, kind="process"):
        self.box(x, y, width, height, kind, lines, height / 2)

    def arrow(self, x, y, end, lower, kind="arrow"):
        self.parts.append(f'<path class="{kind}" d="M{x} {y}L{end} {lower}"/>')

    def bent(self, *points, kind="arrow"):
        self.parts.append(f'<path class="{kind}" d="M' + "L".join(f"{x} {y}" for x, y in points) + '"/>')

    def text(self):
        return (f'<svg xmlns="http://www.w3.org/2000/svg" width="{WIDTH}" height="{self.height}" viewBox="0 0 {WIDTH} {self.height}">\n'
                f"<style>\n{STYLE}@media (prefers-color-scheme:dark){{\n{DARK}}}\n</style>\n<defs>{MARKERS}</defs>\n"
                f'<rect class="ground" width="100%" height="100%"/>\n' + "\n".join(self.parts) + "\n</svg>\n")
