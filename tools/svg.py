"""Texts of SVG documents in the look of the other pictures: one style sheet, light and dark, and a few shapes."""

from xml.sax.saxutils import escape

# Of a letter of a fixed width, in pixels.
MONO = 7.8
STYLE = """\
    text { font: 13px ui-monospace, Menlo, Consolas, monospace; fill: #1f2328; }
    .say { font-family: system-ui, "Segoe UI", Helvetica, Arial, sans-serif; }
    .head { font-weight: 600; }
    .faint { fill: #59636e; }
    .paper { fill: #ffffff; }
    .group { fill: #f6f8fa; stroke: #818b98; }
    .mark { stroke: #59636e; stroke-width: 1.5; fill: none; }
    .tip { fill: #59636e; }
    .ours { fill: #0969da; }
    .others { fill: #afb8c1; }
    @media (prefers-color-scheme: dark) {
      text { fill: #f0f6fc; }
      .faint { fill: #9198a1; }
      .paper { fill: #0d1117; }
      .group { fill: #212830; stroke: #656c76; }
      .mark { stroke: #9198a1; }
      .tip { fill: #9198a1; }
      .ours { fill: #4493f8; }
      .others { fill: #656c76; }
    }"""
TIP = """\
  <defs>
    <marker id="tip" viewBox="0 0 8 8" refX="7" refY="4" markerWidth="7" markerHeight="7" orient="auto">
      <path class="tip" d="M 0 0 L 8 4 L 0 8 z"/>
    </marker>
  </defs>"""


def document(width, height, title, lines):
    size = f'viewBox="0 0 {width} {height}" width="{width}" height="{height}"'
    head = f'<svg xmlns="http://www.w3.org/2000/svg" {size} role="img" aria-labelledby="title">'
    paper = f'  <rect class="paper" width="{width}" height="{height}" rx="8"/>'
    return "\n".join([head, f'  <title id="title">{escape(title)}</title>', f"  <style>\n{STYLE}\n  </style>", TIP, paper, *lines, "</svg>", ""])


def text(x, y, words, kind="", end=False):
    anchor = ' text-anchor="end"' if end else ""
    return f'  <text class="{kind}" x="{x:g}" y="{y:g}"{anchor}>{escape(words)}</text>'


def box(x, y, width, height, kind="group", radius=6):
    return f'  <rect class="{kind}" x="{x:g}" y="{y:g}" width="{width:g}" height="{height:g}" rx="{radius}"/>'


def line(x, y, to_x, to_y, kind):
    return f'  <path class="{kind}" d="M {x:g} {y:g} L {to_x:g} {to_y:g}"/>'


def arrow(x, y, to_x, to_y):
    return f'  <path class="mark" marker-end="url(#tip)" d="M {x:g} {y:g} L {to_x:g} {to_y:g}"/>'
