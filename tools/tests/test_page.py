"""The page of tools/show: what it holds, and in a browser, where there is one, what it shows when somebody clicks and chooses."""
import json
import os
import re
import tempfile
import unittest

from browser import NoBrowser, told_by
from chart import Chart
from entry_tags import Tagger
from files import TOP, beside, read_text, run_tool
from hello import BEFORE
from journey import journeys
from page import page
from report_form import read_report
from set_up import length_of_set_up

ENDED = os.path.join(TOP, 'examples', 'ended.report')
DATA = re.compile(r'<script type="application/json" id="data">(.*?)</script>', re.DOTALL)
SHIFTED = re.compile(r'"n":(\d+)|"send":(\d+)|\[(\d+),0\]|\["copy",(\d+),0')
LEG = re.compile(r'<line x1="([^"]*)" y1="([^"]*)" x2="([^"]*)" y2="([^"]*)"')
TIMES = 1993
# At once, to a reader, and also on a machine that is busy with proofs.
SOON = 1000

DOING = '''
  const click = one => one.dispatchEvent(new MouseEvent("click", { bubbles: true }));
  const shown = () => layout.items.map(one => one.number), told = { before: shown() };
  const choose = (kind, name) => { field(kind).value = name; field(kind).dispatchEvent(new Event("change")); return shown(); };
  zoom(0.3);
  const leg = one => ["x1", "y1", "x2", "y2"].map(name => Number(one.getAttribute(name)));
  told.legs = [...document.querySelectorAll("#rows g[data-copy] line")].map(leg);
  zoom(1 / 0.3);
  told.words = words.querySelector('g[data-n="57"] .row').textContent;
  click(document.querySelector('#rows g[data-n="57"]'));
  told.entry = detail.innerText;
  told.links = [...detail.querySelectorAll("a[data-to]")].map(one => one.dataset.to);
  click(detail.querySelector('a[data-to="60"]'));
  told.second = [detail.querySelector("h2").textContent, location.hash];
  click(detail.querySelector('a[data-kind="channel"]'));
  told.channel = [state.channel, document.getElementById("count").textContent];
  click(document.getElementById("clear"));
  told.node = choose("node", "1");
  told.both = choose("connection", "86");
  click(document.getElementById("clear"));
  told.copy = choose("copy", "[52, 0]");
  told.ways = document.querySelectorAll("#rows g[data-copy]").length;
  click(document.querySelector("#rows g[data-copy]"));
  told.way = detail.innerText;
  click(document.getElementById("clear"));
  click(document.querySelector('#rows g[data-n="fold"]'));
  told.all = shown().length;
  return told;
'''
LONG_DOING = '''
  const timed = doing => { const from = performance.now(); doing(); void document.body.offsetHeight; return performance.now() - from; };
  const times = {
    click: timed(() => choose(5000)),
    copy: timed(() => change({ copy: "9036,0" })),
    all: timed(clearFilter),
    node: timed(() => change({ node: "1" })),
    none: timed(clearFilter),
    zoom: timed(() => { for (let times = 0; times < 6; times++) zoom(1 / 1.25); }),
    end: timed(() => { view.scrollTop = 1e9; draw(false); }),
  };
  const drawn = [...document.querySelectorAll("#rows g[data-n]")].map(one => one.dataset.n);
  return { times, rows: drawn.length, last: drawn.includes("10000"), text: detail.innerText };
'''


def example(name):
    report = read_report(read_text(os.path.join(TOP, 'examples', name + '.report')))
    return report, json.loads(read_text(os.path.join(TOP, 'examples', name + '.json')))['script']


def page_of(report, events, name='a report'):
    return page(report, journeys(report, events), events, length_of_set_up(report, events), name)


def legs_of_picture(name):
    """Each line of a copy's way in the picture of an example: its two ends."""
    report, events = example(name)
    drawn = Chart(report, journeys(report, events), events, length_of_set_up(report, events), len(report.entries) - 1, True).draw()
    copies = re.findall(r'<g><title>{"copy":.*?</g>', drawn)
    return [tuple(map(float, ends)) for copy in copies for ends in LEG.findall(copy)]


def shifted(line, by):
    """A line of the first example's message, so many entries later; what was put before the message stays where it is."""
    def later(found):
        place = next(place for place in range(1, 5) if found.group(place))
        return found.group().replace(found.group(place), str(int(found.group(place)) + by), 1)
    return SHIFTED.sub(later, line)


def long_report():
    """A report of ten thousand entries: the first example's, with its message again and again."""
    lines = read_text(os.path.join(TOP, 'examples', 'hello.report')).splitlines()
    message, fate = lines[BEFORE:-2], lines[-2]
    entries = lines[:BEFORE] + [shifted(line, len(message) * turn) for turn in range(TIMES) for line in message]
    fates = [fate.replace('36', str(36 + 5 * turn)).replace('40]', '%d]' % (40 + 5 * turn)) for turn in range(TIMES)]
    return read_report('\n'.join([*entries, *fates, '{"copies":%d,"entries":%d}' % (TIMES, len(entries)), '']))


class Page(unittest.TestCase):

    def test_the_page_has_each_line_and_asks_for_no_other_file(self):
        report, events = example('ended')
        text = page_of(report, events)
        data = json.loads(DATA.search(text).group(1))
        lines = read_text(ENDED).splitlines()
        self.assertEqual(data['lines'] + list(data['copies'].values()), lines[:-1])
        self.assertEqual((data['setUp'], len(data['rows'])), (38, 130))
        self.assertEqual(re.findall(r'''(?:src|href|url|import|fetch)\\s*[=(]|{{|https?:''', text.replace(DATA.search(text).group(), '')), [])

    def test_no_text_of_a_report_ends_the_script_that_it_stands_in(self):
        report = read_report('{"end":[],"n":0,"put":[["router:0",{"a":"</script><b>{{DATA}}"}]],"reply":"<i>","take":[]}\n'
                             '{"copies":0,"entries":1}\n')
        text = page_of(report, [], '</title>{{STYLE}}')
        self.assertEqual(text.count('</script>'), 2)
        self.assertNotIn('<b>{{', text)
        self.assertIn('<title>&lt;/title&gt;{{STYLE}}</title>', text)
        self.assertEqual(json.loads(DATA.search(text).group(1))['lines'], [report.entries[0].line])

    def test_an_entry_is_about_what_it_took_put_and_ended(self):
        report, events = example('ended')
        for given in (events, []):
            tagger = Tagger(report, journeys(report, given), given)
            tags = {number: tagger.tags_of(report.entries[number]) for number in (25, 44, 45, 57, 61)}
            self.assertEqual([(one.nodes, one.connections, one.channels, sorted(one.copies)) for one in tags.values()], [
                ({0}, {25}, set(), []),
                ({0}, {25}, {7}, [(38, 0), (39, 0), (40, 0)]),
                ({1}, {26}, {7}, [(38, 0)]),
                ({1}, {26}, {7, 8}, [(39, 0), (40, 0), (50, 0), (51, 0)]),
                ({1}, set(), {7}, [(38, 0)])])

    def test_a_cut_is_about_both_ends_of_its_link(self):
        report, events = example('cut')
        tagger = Tagger(report, journeys(report, events), events)
        tags = [tagger.tags_of(report.entries[number]) for number in (48, 49, 74)]
        self.assertEqual([(one.nodes, one.connections, one.channels, sorted(one.copies)) for one in tags], [
            ({0, 1}, {24, 25}, {7}, [(38, 0), (45, 0)]), (set(), set(), set(), []), ({0, 1}, set(), set(), [])])

    def test_the_tool_writes_the_page(self):
        with tempfile.TemporaryDirectory() as folder:
            path = os.path.join(folder, 'ended.html')
            self.assertEqual(run_tool('show', ENDED, '--script', beside(ENDED, '.json'), '--html', path).returncode, 0)
            self.assertEqual(read_text(path), page_of(*example('ended'), 'ended.report'))
            self.assertEqual(run_tool('show', ENDED, '--html', os.path.join(folder, 'none', 'page.html')).returncode, 1)


class InABrowser(unittest.TestCase):

    def leave_out(self, why):
        print('the page is not tried in a browser: %s' % why)
        self.skipTest(why)

    def told(self, report, events, script, address=''):
        try:
            with tempfile.TemporaryDirectory() as folder:
                return told_by(page_of(report, events), folder, script, address)
        except NoBrowser as why:
            return self.leave_out(str(why))

    def assert_same_legs(self, on_page, in_picture):
        """That the copies go the same ways on both; the page has no legend above its rows, so all is higher by as much."""
        self.assertEqual(len(on_page), len(in_picture))
        higher = in_picture[0][1] - on_page[0][1]
        for one, other in zip(on_page, in_picture):
            for found, due in zip(one, (other[0], other[1] - higher, other[2], other[3] - higher)):
                self.assertAlmostEqual(found, due, delta=0.2)

    def test_a_click_shows_an_entry_and_a_choice_those_that_it_is_about(self):
        told = self.told(*example('ended'), DOING)
        for words in ('Entry 57', 'at 0 s', '"reply":{"ended":"killed"}', 'control:1:26 "kill", put by entry 56',
                      'router:1 {"release":1}: taken by entry 60', 'copy [40,0]: connection_ended'):
            self.assertIn(words, told.get('entry', told))
        self.assertEqual(told['words'], '57  node 1 send_step: killed')
        self.assertEqual(told['links'], ['56', '58', '56', '60', '68', '54', '53', '46', '44'])
        self.assertEqual(told['second'], ['Entry 60', '#entry=60'])
        self.assertEqual(told['channel'][0], '7')
        self.assertEqual(told['before'], ['fold', *range(38, 130)])
        self.assertEqual(told['both'], ['fold', 86, 88, 90, 92, 94, 98])
        self.assertTrue(set(told['both']) < set(told['node']) < set(told['before']))
        self.assertEqual((told['copy'], told['ways']), (['fold', 52, 59], 1))
        for words in ('Copy [52,0]', 'entry 52: into router:1', 'entry 59: connection_ended'):
            self.assertIn(words, told['way'])
        self.assertEqual(told['all'], 130)
        self.assert_same_legs(told['legs'], legs_of_picture('ended'))

    def test_ten_thousand_entries_answer_at_once(self):
        report = long_report()
        self.assertEqual((len(report.entries), report.copies[(9036, 0)]), (10001, ('delivered', 'channel:1:7', 9040)))
        told = self.told(report, [], LONG_DOING, '#entry=9000')
        self.assertEqual({name: taken for name, taken in told.get('times', told).items() if taken > SOON}, {})
        self.assertEqual((told['last'], told['rows'] < 1000), (True, True))
        self.assertIn('Entry 5000', told['text'])
