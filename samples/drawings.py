"""Draws the objects of the samples, with Pillow."""

from __future__ import annotations

import math
from typing import Callable, Tuple

from PIL import Image, ImageDraw

Colour = Tuple[int, int, int]
WIDTH, HEIGHT = 360, 270
CARD: Tuple[Colour, ...] = ((115, 82, 68), (194, 150, 130), (98, 122, 157), (87, 108, 67), (214, 126, 44), (160, 160, 160))


def shaded(colour: Colour, light: float) -> Colour:
    """A colour in some light."""
    red, green, blue = (max(0, min(255, round(it * light))) for it in colour)
    return red, green, blue


def backdrop() -> Image.Image:
    """A grey backdrop with a colour card, as in a photographer's studio."""
    picture = Image.new("RGB", (WIDTH, HEIGHT))
    draw = ImageDraw.Draw(picture)
    for y in range(HEIGHT):
        light = 0.95 - 0.35 * y / HEIGHT if y < 200 else 0.62 + 0.2 * (y - 200) / 70
        draw.line([(0, y), (WIDTH, y)], fill=shaded((225, 224, 220), light))
    for i, colour in enumerate(CARD):
        draw.rectangle([14 + 15 * i, 245, 27 + 15 * i, 258], fill=colour)
    return picture


def turned(colour: Colour, band: Colour, top: int, bottom: int, radius: Callable[[float], float]) -> Image.Image:
    """A vessel made on a wheel. `radius` is its radius at a height between 0 and 1."""
    picture = backdrop()
    draw = ImageDraw.Draw(picture)
    draw.ellipse([95, bottom - 12, 285, bottom + 14], fill=(120, 118, 115))
    for y in range(top, bottom):
        height = (y - top) / (bottom - top)
        wide = radius(height)
        own = band if 0.3 < height < 0.36 or 0.4 < height < 0.43 else colour
        for x in range(round(-wide), round(wide) + 1):
            side = x / (wide + 1)
            light = 0.35 + 0.75 * math.sqrt(max(0.0, 1 - (side + 0.35) ** 2 / 1.9))
            draw.point((180 + x, y), fill=shaded(own, light))
    return picture


def vase() -> Image.Image:
    return turned((176, 96, 58), (58, 40, 34), 38, 232, lambda it: 26 + 52 * math.sin(math.pi * it**0.8) ** 2 + 10 * (it < 0.06))


def bowl() -> Image.Image:
    return turned((96, 134, 138), (222, 214, 190), 118, 226, lambda it: 104 * math.sqrt(1 - it**2.4) if it < 0.93 else 44)


def tile() -> Image.Image:
    """A glazed tile with a star."""
    picture = backdrop()
    draw = ImageDraw.Draw(picture)
    draw.rectangle([94, 34, 270, 210], fill=(233, 229, 214), outline=(120, 110, 100), width=3)
    points = [(182 + r * math.sin(i * math.pi / 8), 122 + r * math.cos(i * math.pi / 8)) for i in range(16) for r in [78 if i % 2 else 40]]
    draw.polygon(points, fill=(38, 78, 128))
    draw.ellipse([160, 100, 204, 144], fill=(198, 150, 60))
    return picture


def portrait() -> Image.Image:
    """A painted portrait in its frame."""
    picture = Image.new("RGB", (168, 210), (120, 86, 40))
    draw = ImageDraw.Draw(picture)
    draw.rectangle([14, 14, 153, 195], fill=(58, 52, 44))
    draw.ellipse([30, 130, 138, 260], fill=(74, 30, 34))
    draw.rectangle([14, 196, 153, 209], fill=(120, 86, 40))
    draw.ellipse([58, 46, 112, 122], fill=(206, 168, 136))
    draw.pieslice([52, 36, 118, 104], 180, 360, fill=(66, 44, 30))
    draw.rectangle([74, 118, 96, 140], fill=(190, 152, 122))
    for x in (74, 96):
        draw.ellipse([x - 4, 80, x + 2, 85], fill=(40, 30, 26))
    draw.arc([74, 92, 98, 110], 20, 160, fill=(140, 70, 66), width=2)
    return picture


def town_plan() -> Image.Image:
    """A plan of a town at a river."""
    picture = Image.new("RGB", (WIDTH, HEIGHT), (232, 219, 186))
    draw = ImageDraw.Draw(picture)
    river = [(x, 150 + 34 * math.sin(x / 58)) for x in range(0, WIDTH + 1, 6)]
    draw.line(river, fill=(122, 152, 166), width=20)
    for x in range(24, 340, 46):
        for y in range(24, 250, 38):
            if abs(y + 12 - (150 + 34 * math.sin((x + 15) / 58))) > 30:
                draw.rectangle([x, y, x + 34, y + 24], outline=(96, 70, 52), fill=(214, 180, 142))
    draw.rectangle([4, 4, WIDTH - 5, HEIGHT - 5], outline=(96, 70, 52), width=2)
    return picture


def sash() -> Image.Image:
    """A woven sash."""
    picture = backdrop()
    draw = ImageDraw.Draw(picture)
    colours = ((150, 36, 44), (226, 196, 120), (40, 62, 90), (226, 196, 120), (150, 36, 44), (66, 96, 70))
    for i in range(24):
        x = 48 + 11 * i
        draw.rectangle([x, 70, x + 10, 190], fill=colours[i % 6])
        for y in range(74, 188, 12):
            draw.line([(x, y), (x + 5, y + 5), (x + 10, y)], fill=shaded(colours[(i + 3) % 6], 0.9), width=1)
        draw.line([(x + 5, 190), (x + 3 + i % 5, 214)], fill=(226, 196, 120), width=2)
    return picture


def crate() -> Image.Image:
    """A wooden crate, as it came."""
    picture = backdrop()
    draw = ImageDraw.Draw(picture)
    for i in range(6):
        draw.rectangle([70, 60 + 26 * i, 290, 83 + 26 * i], fill=shaded((184, 144, 94), 1 - 0.05 * (i % 3)), outline=(110, 80, 48))
    draw.rectangle([70, 60, 92, 213], fill=(150, 112, 70))
    draw.rectangle([268, 60, 290, 213], fill=(150, 112, 70))
    draw.rectangle([140, 112, 220, 164], fill=(238, 236, 228), outline=(90, 90, 90))
    for y in (124, 136, 148):
        draw.line([(150, y), (210 - (y - 124), y)], fill=(60, 60, 60), width=3)
    return picture
