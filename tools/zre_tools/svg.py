"""SVG: elements, shapes and colours, and a canvas that grows downwards."""
from html import escape
from typing import List, Sequence, Tuple, Union

from .layout import half, short

# Colours that are told apart by colour-blind readers too (Okabe and Ito); no two kinds of marks have one shape.
BLACK, GREY, BAR, BLUE, RED, ORANGE = "#1a1a1a", "#5f5f5f", "#c9d6e2", "#0072b2", "#d55e00", "#f0a500"
SHADE = "#7f9db9"
GROUP_COLOURS = ("#009e73", "#cc79a7", "#56b4e9", "#8c6d00", "#6a51a3", "#000000")
# For each kind of mark: its shape around 0 0, its colours, and how round and of which text the shape of several is.
SHAPES = {
    "WHISPER": ("M-3.5 0a3.5 3.5 0 1 0 7 0a3.5 3.5 0 1 0-7 0z", RED, RED, 5, "#fff"),
    "SHOUT": ("M0-4.5L4.5 0L0 4.5L-4.5 0z", BLUE, BLUE, 0, "#fff"),
    "EVASIVE": ("M0-4L4.5 4H-4.5z", ORANGE, BLACK, 2, BLACK),
    "CLOSED": ("M-3.5-3.5H3.5V3.5H-3.5z", BLACK, BLACK, 0, "#fff"),
    "IGNORED": ("M-3.5-3.5H3.5V3.5H-3.5z", "#fff", BLACK, 0, BLACK),
    "REFUSED": ("M-3.5-3.5L3.5 3.5M3.5-3.5L-3.5 3.5", "none", RED, 3, RED),
    "STOP": ("M-1.5-4.5H1.5V4.5H-1.5z", BLACK, BLACK, 0, "#fff"),
}
OTHER = ("M0-4L4 0L0 4L-4 0z", "#fff", BLACK, 2, BLACK)
STYLE = f"""text {{ font: 11px "DejaVu Sans", Verdana, Helvetica, Arial, sans-serif; fill: {BLACK} }}
.head {{ font-size: 14px; font-weight: bold }} .name {{ font-weight: bold }}
.small {{ font-size: 9px; fill: {GREY} }} .cause {{ font-size: 9.5px }}
.end {{ text-anchor: end }} .middle {{ text-anchor: middle }}
.count {{ font-size: 8px; font-weight: bold; text-anchor: middle }}
.grid {{ stroke: #dcdcdc }} .stop {{ stroke: {BLACK}; stroke-dasharray: 4 3 }}"""


def colour_of(kind: str) -> str:
    """The colour that stands for a kind of marks."""
    _, fill, stroke, *_ = SHAPES.get(kind, OTHER)
    return stroke if fill in ("none", "#fff") else fill


def element(name: str, inner: str = "", told: str = "", **attributes: Union[str, float]) -> str:
    """An element, with what it tells as a tooltip. Text in it is escaped already."""
    words = "".join(
        f' {key.rstrip("_").replace("_", "-")}="{round(value, 1) if isinstance(value, float) else value}"'
        for key, value in attributes.items()
    )
    title = f"<title>{escape(told)}</title>" if told else ""
    return f"<{name}{words}>{title}{inner}</{name}>" if title or inner else f"<{name}{words}/>"


class Canvas:
    """The parts of a picture, and where the next one stands."""

    def __init__(self, width: int) -> None:
        self.width, self.y = width, 0.0
        self.parts: List[str] = []
        self.stripes: List[str] = []

    def put(self, name: str, inner: str = "", told: str = "", **attributes: Union[str, float]) -> None:
        """An element."""
        self.parts.append(element(name, inner, told, **attributes))

    def text(self, x: float, y: float, text: str, kind: str) -> None:
        """Text of a class; none where it is empty."""
        if text:
            self.put("text", escape(text), x=float(x), y=float(y), class_=kind)

    def bar(self, x: float, y: float, width: float, height: float, fill: str, told: str = "") -> None:
        """A rectangle."""
        self.put("rect", "", told, x=float(x), y=float(y), width=float(width), height=float(height), fill=fill)

    def mark(self, kind: str, x: float, y: float, count: int, told: str) -> None:
        """A mark, or the one that stands for several."""
        path, fill, stroke, corner, ink = SHAPES.get(kind, OTHER)
        if count == 1:
            self.put("path", "", told, transform=f"translate({x:.1f} {y:.1f})", d=path, fill=fill, stroke=stroke)
            return
        reach, ground = half(count), "#fff" if fill == "none" else fill
        box = element("rect", x=x - reach, y=y - 4.5, width=2 * reach, height=9, rx=corner, fill=ground, stroke=stroke)
        number = element("text", short(count), x=float(x), y=y + 3.0, class_="count", style=f"fill:{ink}")
        self.put("g", box + number, told)

    def strip(
        self, box: Tuple[float, float, float, float], width: int, counts: Sequence[int], fill: str, told: str
    ) -> None:
        """A rate: for each bin of this width a column above the base; the greatest has the height of the box, which is
        its left end, base, width and height."""
        x, base, room, height = box
        most, path, is_open = max(counts), [], False
        for at, count in enumerate(counts):
            if count and not is_open:
                path.append(f"M{x + at * width:.1f} {base:.1f}")
            if count:
                path.append(f"V{base - max(0.8, height * count / most):.1f}h{min(width, room - at * width):.4g}")
            elif is_open:
                path.append(f"V{base:.1f}z")
            is_open = count > 0
        path += ["V%.1fz" % base] if is_open else []
        line = element("path", d=f"M{x:.1f} {base:.1f}h{room}", stroke=fill, stroke_width=0.4)
        self.put("g", line + element("path", d="".join(path), fill=fill), told)

    def stripe(self, top: float, is_striped: bool) -> None:
        """The ground of a lane that began there and ends here."""
        if is_striped:
            height = float(self.y - top)
            self.stripes.append(element("rect", x=0, y=float(top), width=self.width, height=height, fill="#f5f5f5"))
