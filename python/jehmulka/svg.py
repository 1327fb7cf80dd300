"""The pieces of a picture: elements, the hatch of what is missing, the scale of sums."""

from __future__ import annotations

from typing import Tuple, Union
from xml.sax.saxutils import escape, quoteattr

# From the sum 0 to the greatest; each shade differs from plain white by 3 to 1 or more.
LOW, HIGH = (86, 148, 199), (8, 29, 68)
INK, LINE, PLAIN = '#1a1a1a', '#767676', '#ffffff'
HATCHED, SHADED = 'url(#jehmulka-missing)', 'url(#jehmulka-sums)'
HATCH = ('<pattern id="jehmulka-missing" width="6" height="6" patternUnits="userSpaceOnUse">'
         '<rect width="6" height="6" fill="#ffffff"/>'
         '<path d="M-1,1 l2,-2 M0,6 l6,-6 M5,7 l2,-2" stroke="#1a1a1a" stroke-width="1.2"/>'
         '</pattern>')


def shade(amount: int, greatest: int) -> str:
    """The colour of a sum, darker the greater it is."""
    parts = [low + (high - low) * amount // greatest if greatest else low
             for low, high in zip(LOW, HIGH)]
    return '#%02x%02x%02x' % tuple(parts)


SCALE = ('<linearGradient id="jehmulka-sums"><stop offset="0" stop-color="%s"/>'
         '<stop offset="1" stop-color="%s"/></linearGradient>' % (shade(0, 1), shade(1, 1)))


def element(name: str, *inside: str, **attributes: Union[str, int]) -> str:
    """An element with what is inside it; `font_size` is written font-size."""
    told = ''.join(' %s=%s' % (key.replace('_', '-'), quoteattr(str(value)))
                   for key, value in attributes.items())
    return '<%s%s>%s</%s>' % (name, told, ''.join(inside), name)


def words(text: str) -> str:
    """Text that stands in an element."""
    if not text.isprintable():
        raise ValueError('no picture has such a character: %r' % text)
    return escape(text)


def text(place: Tuple[int, int], told: str, **attributes: Union[str, int]) -> str:
    """A line of text at a place."""
    return element('text', words(told), x=place[0], y=place[1], **attributes)


def box(place: Tuple[int, int], size: Tuple[int, int], fill: str, told: str = '',
        **attributes: Union[str, int]) -> str:
    """A rectangle, with the words that a screen reader finds and a pointer shows."""
    inside = element('title', words(told)) if told else ''
    return element('rect', inside, x=place[0], y=place[1], width=size[0], height=size[1],
                   fill=fill, stroke=LINE, **attributes)


def document(size: Tuple[int, int], title: str, summary: str, *inside: str) -> str:
    """A whole picture with its title and summary."""
    return element(
        'svg', '\n', element('title', words(title)), element('desc', words(summary)), '\n',
        element('defs', HATCH, SCALE), '\n',
        element('rect', width=size[0], height=size[1], fill=PLAIN), '\n',
        text((16, 28), title, font_size=17, font_weight='bold', aria_hidden='true'), '\n',
        text((16, 48), summary, aria_hidden='true'), '\n',
        '\n'.join(inside), '\n',
        xmlns='http://www.w3.org/2000/svg', lang='en', role='graphics-document document',
        width=size[0], height=size[1], viewBox='0 0 %d %d' % size,
        font_family='DejaVu Sans, Verdana, sans-serif', font_size=12, fill=INK) + '\n'
