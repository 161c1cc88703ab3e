#!/usr/bin/env python3
"""Names the links between the repository's documents that lead nowhere, or to no heading: python3 tests/links.py"""
import re
import sys
from pathlib import Path

TOP = Path(__file__).resolve().parents[1]
PAGES = [page for page in TOP.rglob('*.md') if 'out' not in page.parts]


def anchors(page):
    heads = re.findall(r'^#+ (.*)', re.sub(r'```.*?```', '', page.read_text(), flags=re.S), re.M)
    return {re.sub(r'[^\w\- ]', '', head.lower()).replace(' ', '-') for head in heads}


dead, count = [], 0
for page in PAGES:
    for path, anchor in re.findall(r'\]\((?!https?:)([^)#\s]*)#?([^)\s]*)\)', page.read_text()):
        count += 1
        to = (page.parent / path).resolve() if path else page
        if not to.exists() or anchor and anchor not in anchors(to):
            dead.append(f'{page.relative_to(TOP)}: {path}#{anchor}')
print(f'pages={len(PAGES)} links={count} dead={len(dead)}', *dead, sep='\n')
sys.exit(1 if dead else 0)
