#!/usr/bin/env python3
"""Draws docs/terminal.svg, the picture of README.md, from commands of README.md and what stands below them: picture.py > docs/terminal.svg

tour.py compares the picture with what this prints, and the blocks with what the program prints."""

import sys
sys.dont_write_bytecode = True  # no __pycache__ beside the sources

from html import escape

from documents import TOP, blocks_of, commands_of

SHOWN = (' serve ', ' write ', ' explain --pairs ')
LINE, WIDTH, EDGE = 20, 640, 16


def drawn():
    """The picture."""
    lines = []
    blocks = [block for block in blocks_of((TOP / 'README.md').read_text()) if block.kind == 'console']
    for word in SHOWN:
        command, below = next(found for block in blocks for found in commands_of(block) if word in found[0])
        lines += [f'<tspan class="c">$ {escape(command)}</tspan>', *(escape(line) for line in below)]
    rows = ''.join(f'<text x="{EDGE}" y="{EDGE + LINE * number}">{line}</text>\n' for number, line in enumerate(lines, 1))
    style = 'text{font:14px monospace;fill:#c9d1d9;white-space:pre}.c{fill:#7ee787}'
    height = LINE * len(lines) + 2 * EDGE
    return (f'<svg xmlns="http://www.w3.org/2000/svg" xml:space="preserve" viewBox="0 0 {WIDTH} {height}">\n<style>{style}</style>\n'
            f'<rect width="100%" height="100%" rx="8" fill="#0d1117"/>\n{rows}</svg>\n')


if __name__ == '__main__':
    sys.stdout.write(drawn())
