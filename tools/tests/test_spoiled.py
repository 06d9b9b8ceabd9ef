"""Spoiled scripts and reports: each is told, or read, and none ends a tool otherwise."""
import json
import os
import unittest
import xml.dom.minidom

from chart import Chart
from copy_table import copy_table
from copy_way import way_lines
from files import beside, examples, read_bytes, read_text, reports
from journey import journeys
from judge import judge, lines_of, status_now
from page import page
from places import keys_of_nodes
from report_form import BadReport, read_report
from same_run import OtherRun, check_same_run
from set_up import length_of_set_up
from spoil import spoil_bytes, spoil_value
from why import why_lines

EACH = 20
# A page takes longer than a picture, and is tried for one of so many reports.
PAGE_OF_EACH = 4


def spoiled_reports(path):
    """Spoiled texts of a report: of its bytes, and of the values of its lines."""
    text = read_text(path)
    lines = [json.loads(line) for line in text.splitlines()]
    for seed in range(EACH):
        yield spoil_bytes(text.encode(), seed).decode('utf-8', 'replace')
        yield ''.join(json.dumps(line) + '\n' for line in spoil_value(lines, seed))


class Spoiled(unittest.TestCase):

    def test_a_spoiled_script_gets_a_verdict(self):
        statuses = set()
        for path in examples():
            tree = json.loads(read_text(path))
            for seed in range(EACH):
                for data in (spoil_bytes(read_bytes(path), seed), json.dumps(spoil_value(tree, seed)).encode()):
                    text, verdict = judge(data)
                    self.assertTrue(lines_of(os.path.basename(path), text, verdict))
                    statuses.add(status_now(verdict))
        self.assertEqual(statuses, {0, 5, 6, 8})

    def test_a_spoiled_report_is_told_or_shown(self):
        told = shown = 0
        for path in reports():
            for text in spoiled_reports(path):
                try:
                    report = read_report(text)
                except BadReport as bad:
                    self.assertTrue(str(bad))
                    told += 1
                    continue
                found = journeys(report, [])
                self.assertTrue(copy_table(found, keys_of_nodes(report, found)))
                xml.dom.minidom.parseString(Chart(report, found, [], 0, len(report.entries) - 1).draw())
                if shown % PAGE_OF_EACH == 0:
                    self.assertIn('"lines":', page(report, found, [], length_of_set_up(report, []), 'a report'))
                shown += 1
        self.assertGreater(min(told, shown), 50)

    def test_a_spoiled_report_with_its_script_is_told_or_shown_with_causes(self):
        other = shown = 0
        for path in reports():
            script = json.loads(read_text(beside(path, '.json')))
            for text in spoiled_reports(path):
                try:
                    report = read_report(text)
                    check_same_run(report, script['configs'], script['script'])
                except BadReport:
                    continue
                except OtherRun as found:
                    self.assertTrue(found.reason)
                    other += 1
                    continue
                self.assertTrue(why_lines(report, script['configs'], script['script']))
                for journey in journeys(report, script['script']):
                    self.assertTrue(way_lines(report, journey, {}))
                shown += 1
        self.assertGreater(min(other, shown), 50)
