#!/usr/bin/env python3
"""Holds what `bac decode` prints against what tshark shows of the same datagrams.

compare.py PROGRAM FILE.. ; README.md beside this file says more. Status 0 where every difference has a known reason, otherwise 1."""

import sys
sys.dont_write_bytecode = True  # no __pycache__ beside the sources

from collections import Counter

from explained import MEMBER_KINDS, REFUSAL_KINDS, Case, after_long_address, fault_kind
from members import compare_line
from readings import bac_readings, read_datagrams, tshark_rows, tshark_version
from shapes import has_service, production, spelled_octets


TITLES = ['read by both', 'refused by both', 'refused by bac alone', 'refused by tshark alone', 'members compared', 'productions compared', 'members that differ']


class Report:
    """Counts of what was compared, of each reason met, and the differences that have none."""

    def __init__(self):
        self.counts = Counter()
        self.reasons = Counter()
        self.unexplained = []

    def explain(self, title, name, reason):
        self.counts[title] += 1
        self.reasons[title, name, reason] += 1

    def unexplain(self, title, case, text):
        self.counts[title] += 1
        self.unexplained.append(f'{title}: {text}: {case.datagram}')


def main(words):
    if len(words) < 2:
        print('usage: compare.py PROGRAM FILE..', file=sys.stderr)
        return 2
    datagrams, others = read_datagrams(words[1:])
    report = Report()
    for case in map(Case, datagrams, bac_readings(words[0], datagrams), tshark_rows(datagrams)):
        compare_case(case, report)
    print_report(report, len(datagrams), others)
    return 1 if report.unexplained else 0


def compare_case(case, report):
    refused = not case.row.reached('bacnet') or case.row.malformed
    if case.reading.fault is None and not refused:
        report.counts['read by both'] += 1
    elif case.reading.fault is not None and refused:
        report.counts['refused by both'] += 1
    elif refused:
        compare_refused_by_tshark(case, report)
    else:
        compare_refused_by_bac(case, report)
    compare_members(case, report)


def compare_refused_by_tshark(case, report):
    title = 'refused by tshark alone'
    for name, sign, reason in REFUSAL_KINDS:
        if sign(case):
            return report.explain(title, name, reason)
    report.unexplain(title, case, ' '.join(case.row.get('_ws.expert.message', [])))


def compare_refused_by_bac(case, report):
    title, fault = 'refused by bac alone', case.reading.fault
    reason, sign = fault_kind(fault)
    if after_long_address(case):
        return report.explain(title, 'after an address of more than six octets', f'no sign is looked for: {MEMBER_KINDS[0][2]}')
    if not sign(case):
        return report.unexplain(title, case, f'fault {fault}, of which tshark shows no sign')
    report.explain(title, f'fault {fault}', reason)


def compare_members(case, report):
    for line in case.reading.lines:
        for member, ours, theirs in compare_line(line, case.row):
            report.counts['members compared'] += 1
            if ours != theirs:
                compare_member(case, report, line.word, member, ours, theirs)
    if case.reading.fault is None and case.apdu and has_service(case.apdu) and not after_long_address(case):
        compare_tags(case, report)


def compare_tags(case, report):
    """Service data that `bac` reads: the tags that tshark shows are those of the production, in order, and leave no octet over."""
    report.counts['productions compared'] += 1
    word, octets = case.reading.lines[-1].word, len(case.member('data')) // 2
    ours, theirs = f'{word} of {octets} octets', f'{production(case.row, case.apdu)} of {spelled_octets(case.row)} octets'
    if ours != theirs:
        compare_member(case, report, word, 'tags', ours, theirs)


def compare_member(case, report, word, member, ours, theirs):
    title = 'members that differ'
    for name, sign, reason in MEMBER_KINDS:
        if sign(case, word, member, ours, theirs):
            return report.explain(title, name, reason)
    report.unexplain(title, case, f'{word} {member}: bac {ours}, tshark {theirs}')


def print_report(report, datagrams, others):
    print(tshark_version())
    print(f'distinct datagrams {datagrams}, lines without one {others}')
    for title in TITLES:
        print(f'{title} {report.counts[title]}')
        for (kind, name, reason), count in sorted(report.reasons.items()):
            if kind == title:
                print(f'    {count} {name}: {reason}')
    for text in report.unexplained:
        print(f'UNEXPLAINED {text}')
    print(f'unexplained {len(report.unexplained)}')


if __name__ == '__main__':
    sys.exit(main(sys.argv[1:]))
