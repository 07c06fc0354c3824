"""A sheet of digits as an SVG: each row is a query and its nearest others."""

import base64
import struct
import zlib

import numpy

ACROSS, DOWN, SIDE = 92, 84, 48


def png(pixels):
    """The bytes of a grey picture."""
    high, wide = pixels.shape

    def part(name, held):
        return struct.pack(">I", len(held)) + name + held + struct.pack(">I", zlib.crc32(name + held))

    lines = b"".join(b"\0" + line.tobytes() for line in pixels)
    return b"\x89PNG\r\n\x1a\n" + part(b"IHDR", struct.pack(">IIBBBBB", wide, high, 8, 0, 0, 0, 0)) + part(b"IDAT", zlib.compress(lines, 9)) + part(b"IEND", b"")


def draw_sheet(path, images, names, answers):
    """Draws a row for each answer, a list of (id, distance) that the query itself begins. Two rows stand beside each other."""
    wide, high = 2 * (6 * ACROSS + 30) + 10, (len(answers) + 1) // 2 * DOWN + 34
    parts = [f'<svg xmlns="http://www.w3.org/2000/svg" viewBox="0 0 {wide} {high}" width="{wide}" height="{high}" '
             'font-family="DejaVu Sans, Verdana, Helvetica, Arial, sans-serif" font-size="12" role="img">',
             "<title>Handwritten digits, each with its five nearest others</title>",
             f'<rect x="0.5" y="0.5" width="{wide - 1}" height="{high - 1}" rx="6" fill="#ffffff" stroke="#d0d3d9"/>']
    for number, hits in enumerate(answers):
        left, top = 16 + number % 2 * (6 * ACROSS + 30), 30 + number // 2 * DOWN
        for place, (name, away) in enumerate(hits):
            x = left + place * ACROSS + (10 if place else 0)
            if number < 2:
                parts.append(f'<text x="{x}" y="20" fill="#6b7078">{"query" if place == 0 else "nearest" if place == 1 else ""}</text>')
            is_wrong = names[name] != names[hits[0][0]]
            line = 'stroke="#b35900" stroke-width="3" stroke-dasharray="5 3"' if is_wrong else 'stroke="#0072b2" stroke-width="3"' if place == 0 else 'stroke="#d0d3d9"'
            grey = (255 - images[name] * 255 / 16).astype(numpy.uint8).repeat(6, 0).repeat(6, 1)
            held = base64.b64encode(png(grey)).decode()
            parts.append(f'<image x="{x}" y="{top}" width="{SIDE}" height="{SIDE}" href="data:image/png;base64,{held}"/>')
            parts.append(f'<rect x="{x - 1}" y="{top - 1}" width="{SIDE + 2}" height="{SIDE + 2}" fill="none" {line}/>')
            words = f"{names[name]}" if place == 0 else f"{names[name]}, {away} away"
            parts.append(f'<text x="{x}" y="{top + SIDE + 18}" fill="{"#b35900" if is_wrong else "#1a1a1a"}">{words}</text>')
    with open(path, "w") as file:
        file.write("\n".join([*parts, "</svg>"]) + "\n")
