"""The pages of the repository: what each links to, and the anchors that its titles make."""
import glob
import os
import re

from files import TOP, read_text

FENCE = re.compile(r'^```.*?^```', re.MULTILINE | re.DOTALL)
INDENTED = re.compile(r'^    .*$', re.MULTILINE)
SPAN = re.compile(r'`[^`\n]*`')
LINK = re.compile(r'\]\(([^)\s]+)\)')
TITLE = re.compile(r'^#{1,6} +(.+?) *$', re.MULTILINE)
TITLE_LINK = re.compile(r'\[([^\]]*)\]\([^)]*\)')


def pages():
    """Each page of the top, of docs/, of examples/ and of tests/, in order."""
    return sorted(path for folder in ('', 'docs', 'examples', 'tests')
                  for path in glob.glob(os.path.join(TOP, folder, '*.md')))


def without_code(text, has_spans):
    """The text without its blocks of code, and without its code in lines where `has_spans` is false."""
    text = INDENTED.sub('', FENCE.sub('', text))
    return text if has_spans else SPAN.sub('', text)


def links_of(path):
    """What a page links to, in order."""
    return LINK.findall(without_code(read_text(path), False))


def anchor_of(title):
    """The anchor that a title makes: its words in small letters, joined by hyphens."""
    plain = TITLE_LINK.sub(r'\1', title).lower()
    return re.sub(r'[^\w\- ]', '', plain).replace(' ', '-')


def anchors_of(path):
    """The anchors of a page; of titles that are the same each after the first has a number."""
    found = []
    for title in TITLE.findall(without_code(read_text(path), True)):
        anchor = anchor_of(title)
        times = sum(1 for other in found if other == anchor or re.fullmatch(re.escape(anchor) + r'-\d+', other))
        found.append('%s-%d' % (anchor, times) if times else anchor)
    return found


def fault_of(path, link):
    """Why a page's link leads nowhere, or None."""
    if '://' in link:
        return None
    name, _, anchor = link.partition('#')
    target = os.path.normpath(os.path.join(os.path.dirname(path), name)) if name else path
    if not os.path.exists(target):
        return 'there is no %s' % name
    if '#' in link and (not target.endswith('.md') or anchor not in anchors_of(target)):
        return 'there is no title for #%s' % anchor
    return None


def reached_from(path):
    """The pages that are reached from a page by links, and itself."""
    found, ahead = set(), [path]
    while ahead:
        page = ahead.pop()
        if page in found:
            continue
        found.add(page)
        for link in links_of(page):
            name = link.partition('#')[0]
            target = os.path.normpath(os.path.join(os.path.dirname(page), name))
            if name.endswith('.md') and os.path.exists(target):
                ahead.append(target)
    return found
