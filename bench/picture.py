"""Pictures of counts over two quantities, as SVG text."""

WIDE, HIGH, LEFT, TOP, GAP = 52, 26, 74, 66, 46


def colour(share):
    """Returns a colour from white to red."""
    light = round(255 - 190 * share)
    return '#ff%02x%02x' % (light, light) if share else '#ffffff'


def text(x, y, words, anchor='middle', more=''):
    return f'<text x="{x}" y="{y}" text-anchor="{anchor}"{more}>{words}</text>'


def panels(title, shares, most, below, columns, beside, rows, note):
    """Draws panels side by side, each with its name, its rows of counts of at most `most`, and the row below its line."""
    wide, high = WIDE * len(columns), HIGH * len(rows)
    right = LEFT + len(shares) * (wide + GAP)
    lines = [text(right / 2, 22, title, more=' font-size="15"')]
    for at, (name, counts, edge) in enumerate(shares):
        left = LEFT + at * (wide + GAP)
        lines.append(text(left + wide / 2, TOP - 12, name, more=' font-weight="bold"'))
        for down, (row, label) in enumerate(zip(counts, rows)):
            y = TOP + down * HIGH
            lines.append(text(left - 8, y + 18, label, 'end'))
            for along, count in enumerate(row):
                x = left + along * WIDE
                lines.append(f'<rect x="{x}" y="{y}" width="{WIDE}" height="{HIGH}" fill="{colour(count / most)}" stroke="#bbb"/>')
                lines.append(text(x + WIDE / 2, y + 18, count))
        lines += [text(left + (along + 0.5) * WIDE, TOP + high + 18, label) for along, label in enumerate(columns)]
        lines.append(text(left + wide / 2, TOP + high + 40, below))
        y = TOP + edge * HIGH
        lines.append(f'<path d="M{left - 30} {y}H{left + wide}" stroke="#000" stroke-width="2.5"/>')
    lines.append(text(18, TOP + high / 2, beside, more=f' transform="rotate(-90 18 {TOP + high / 2})"'))
    lines.append(text(right / 2, TOP + high + 66, note, more=' font-style="italic"'))
    size = f'width="{right}" height="{TOP + high + 82}"'
    return (f'<svg xmlns="http://www.w3.org/2000/svg" {size} font-family="sans-serif" font-size="12">\n'
            f'<rect {size} fill="#fff"/>\n' + '\n'.join(lines) + '\n</svg>\n')
