"""Lines over pairs of axes, in SVG. Its colours go by whether the reader has light or dark pages."""
import math
from typing import NamedTuple

STYLE = (
    "<style>text{font:12px sans-serif;fill:#222}.t{font-weight:bold}.b{fill:#fff}.g{stroke:#ddd}.a{stroke:#222;fill:none}"
    ".s{fill:none;stroke-width:2}\n"
    ".s0{stroke:#1f5fbf}.s1{stroke:#b34700;stroke-dasharray:7 3}.s2{stroke:#2b7a2b;stroke-dasharray:2 3}\n"
    "@media(prefers-color-scheme:dark){text{fill:#ddd}.b{fill:#161616}.g{stroke:#3a3a3a}.a{stroke:#ddd}"
    ".s0{stroke:#7fb0ff}.s1{stroke:#ff9f5f}.s2{stroke:#7fd07f}}</style>"
)


class Axis(NamedTuple):
    """The places of values between a first and a last tick: by powers of ten, or from 0 on."""

    ticks: list
    first: float
    last: float
    powers: bool

    @staticmethod
    def of(values, powers, first, last):
        if powers:
            ends = math.floor(math.log10(min(values)) + 0.001), math.ceil(math.log10(max(values)) - 0.001)
            return Axis([10.0**it for it in range(ends[0], ends[1] + 1)], first, last, powers)
        step = 10 ** math.floor(math.log10(max(values)))
        step = next(it for it in (step / 5, step / 2, step, 2 * step) if max(values) <= 5 * it)
        return Axis([it * step for it in range(math.ceil(max(values) / step) + 1)], first, last, powers)

    def place(self, value):
        low, high, at = (math.log10(it) if self.powers else it for it in (self.ticks[0], self.ticks[-1], value))
        return round(self.first + (self.last - self.first) * (at - low) / (high - low), 1)


def panel(left, title, across, up, powers, lines):
    """One pair of axes with its lines, each a name and its points."""
    x, y = (
        Axis.of([it[axis] for _, points in lines for it in points], powers, *ends)
        for axis, ends in enumerate([(70, 350), (310, 110)])
    )
    yield f'<g transform="translate({left},0)"><text class="t" x="16" y="22">{title}</text><text x="16" y="98">{up}</text>'
    for it in x.ticks:
        at = x.place(it)
        yield f'<path class="g" d="M{at} 110V310"/><text x="{at}" y="328" text-anchor="middle">{it:,.10g}</text>'
    for it in y.ticks:
        yield f'<path class="g" d="M70 {y.place(it)}H350"/><text x="64" y="{y.place(it) + 4}" text-anchor="end">{it:,.10g}</text>'
    yield f'<path class="a" d="M70 110V310H350"/><text x="210" y="348" text-anchor="middle">{across}</text>'
    for which, (name, points) in enumerate(lines):
        row = 40 + 16 * which
        yield f'<path class="s s{which}" d="M16 {row - 4}h30"/><text x="54" y="{row}">{name}</text>'
        yield f'<polyline class="s s{which}" points="{" ".join(f"{x.place(a)},{y.place(b)}" for a, b in points)}"/>'
    yield "</g>"


def svg(*panels):
    """A picture of panels beside one another."""
    wide = 400 * len(panels)
    parts = [
        f'<svg xmlns="http://www.w3.org/2000/svg" width="{wide}" height="360" viewBox="0 0 {wide} 360">',
        STYLE,
        '<rect class="b" width="100%" height="100%"/>',
    ]
    parts += [it for at, words in enumerate(panels) for it in panel(400 * at, *words)]
    return "\n".join([*parts, "</svg>"]) + "\n"
