#!/usr/bin/env python3
"""Draws docs/case-a.svg: case A of docs/SCOPE.md, its blocks, its ring and its figures beside the true totals.

Run at the project's root: python3 docs/draw_case_a.py
"""
L, N, D = 5, 6, 10
ITEMS = [3, 4, 5, 5, 0, 1, 5]
C = max(1, D // L)
S = -(-N // C)


def book(items):
    """The record and the slots after the items."""
    carry = phase = kept = head = 0
    slots = [0] * S
    for x in items:
        carry, phase, kept = carry + x, phase + 1, min(N, kept + 1)
        if phase == C:
            slots[head], carry, phase, head = carry // D, carry % D, 0, (head + 1) % S
    return carry, phase, kept, head, slots


def figure(i):
    carry, phase, _, head, slots = book(ITEMS)
    if i <= phase:
        j, e, g = 0, phase - i, carry // D
    else:
        j = -(-(i - phase) // C)
        e, g = j * C - (i - phase), slots[(head - j) % S]
    total = sum(slots[(head - k) % S] for k in range(1, j + 1))
    return max(0, carry + D * total - (D - 1) - e * L * g)


INK, SOFT, BAND, FIG, TRUE = "#1c2733", "#6b7885", "#dfe9f2", "#0b6e99", "#c2410c"
out = []


def put(line):
    out.append("  " + line)


def text(x, y, s, size=14, fill=INK, anchor="middle", weight="normal"):
    put(f'<text x="{x}" y="{y}" font-size="{size}" fill="{fill}" text-anchor="{anchor}" font-weight="{weight}">{s}</text>')


def box(x, y, w, h, fill, stroke=INK, extra=""):
    put(f'<rect x="{x}" y="{y}" width="{w}" height="{h}" fill="{fill}" stroke="{stroke}" {extra}/>')


def items_and_ring():
    carry, phase, kept, head, slots = book(ITEMS)
    left, cell = 60, 62
    text(30, 40, "Items, oldest first, in blocks of c = 2 (L = 5, D = 10)", 15, INK, "start", "bold")
    for k, x in enumerate(ITEMS):
        box(left + k * cell, 62, cell - 6, 40, "#ffffff" if k >= len(ITEMS) - kept else "#f1f1f1")
        text(left + k * cell + 28, 88, str(x), 18)
    for b in range(len(ITEMS) // C):
        x = left + b * C * cell
        put(f'<path d="M{x} 112 v8 h{C * cell - 6} v-8" fill="none" stroke="{SOFT}"/>')
        text(x + cell - 3, 138, f"block {b + 1}", 13, SOFT)
    x = left + (len(ITEMS) // C) * C * cell
    put(f'<path d="M{x} 112 v8 h{cell - 6} v-8" fill="none" stroke="{SOFT}" stroke-dasharray="4 3"/>')
    text(x + 28, 138, "open", 13, SOFT)
    text(left + 28, 160, "not kept", 12, SOFT)
    text(600, 40, "Ring: one bit a slot, 3 slots, 1 byte", 15, INK, "start", "bold")
    byte = sum(s << (7 - k) for k, s in enumerate(slots))
    for k in range(8):
        used = k < S
        box(600 + k * 36, 62, 32, 40, BAND if used else "#ffffff", INK if used else "#c9d1d8")
        text(616 + k * 36, 88, str(slots[k]) if used else "0", 18, INK if used else "#9aa5b1")
        if used:
            text(616 + k * 36, 120, f"slot {k}", 11, SOFT)
    text(600, 142, f"byte {byte:02x} hex, head {head}, R {carry}, p {phase}, kept {kept}", 13, INK, "start")
    text(600, 162, "A slot: how often D was passed while its block came in", 13, SOFT, "start")


def windows():
    left, base, scale, step = 90, 520, 12, 122
    text(30, 208, "Windows 0 to 6: the figure is never above the true total, and short of it by less than D", 15, INK, "start", "bold")
    for v in range(0, 25, 5):
        y = base - v * scale
        put(f'<line x1="{left - 20}" y1="{y}" x2="{left + 7 * step - 20}" y2="{y}" stroke="#e6e6e6"/>')
        text(left - 30, y + 5, str(v), 12, SOFT, "end")
    for i in range(7):
        x = left + i * step + 10
        true, fig = sum(ITEMS[len(ITEMS) - i:]), figure(i)
        box(x, base - (fig + D - 1) * scale, 56, (D - 1) * scale, BAND, "none", 'rx="3"')
        put(f'<line x1="{x}" y1="{base - fig * scale}" x2="{x + 56}" y2="{base - fig * scale}" stroke="{FIG}" stroke-width="4"/>')
        put(f'<circle cx="{x + 28}" cy="{base - true * scale}" r="7" fill="{TRUE}"/>')
        text(x + 62, base - fig * scale + 5, str(fig), 13, FIG, "start", "bold")
        text(x + 40, base - true * scale - 6, str(true), 13, TRUE, "start", "bold")
        text(x + 28, base + 22, f"last {i}", 13)
    y = base + 52
    put(f'<line x1="{left}" y1="{y}" x2="{left + 40}" y2="{y}" stroke="{FIG}" stroke-width="4"/>')
    text(left + 50, y + 5, "the book's figure", 13, INK, "start")
    put(f'<circle cx="{left + 220}" cy="{y}" r="7" fill="{TRUE}"/>')
    text(left + 236, y + 5, "the true total", 13, INK, "start")
    box(left + 380, y - 9, 40, 18, BAND, "none", 'rx="3"')
    text(left + 430, y + 5, "where the true total can lie: up to D − 1 = 9 above the figure", 13, INK, "start")


items_and_ring()
windows()
with open("docs/case-a.svg", "w") as svg:
    svg.write('<svg xmlns="http://www.w3.org/2000/svg" viewBox="0 0 1000 600" font-family="Helvetica, Arial, sans-serif" role="img">\n')
    svg.write("  <title>Case A: items, blocks, the ring's bits, and each figure within D of the true total</title>\n")
    svg.write('  <rect width="1000" height="600" fill="#ffffff"/>\n')
    svg.write("\n".join(out) + "\n</svg>\n")
