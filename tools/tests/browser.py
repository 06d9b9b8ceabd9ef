"""A browser without a window, where there is one: it opens a page, runs a script in it, and hands back what that answers."""
import base64
import json
import os
import re
import shutil
import subprocess

NAMES = ('chromium', 'chromium-browser', 'google-chrome', 'google-chrome-stable', 'chrome')
TOLD = re.compile(r'<pre id="told">(.*?)</pre>', re.DOTALL)
DOING = '''<pre id="told"></pre><script>
(async () => {
  let told;
  try { told = await (async () => { %s })(); } catch (error) { told = { error: String(error) }; }
  document.getElementById("told").textContent = btoa(unescape(encodeURIComponent(JSON.stringify(told))));
})();
</script>'''


class NoBrowser(Exception):
    """There is no browser here, or it showed no page at all, and why."""


def browser():
    """The path of a browser."""
    found = next(filter(None, map(shutil.which, NAMES)), None)
    if found is None:
        raise NoBrowser('there is none here: %s' % ', '.join(NAMES))
    return found


def told_by(page, folder, script, address=''):
    """What a script answers that runs in a page, once the page is there; the page is written into the folder."""
    path = os.path.join(folder, 'page.html')
    with open(path, 'w', encoding='utf-8') as out:
        out.write(page.replace('</html>', DOING % script + '</html>'))
    words = [browser(), '--headless', '--disable-gpu', '--disable-dev-shm-usage', '--window-size=1400,900', '--virtual-time-budget=2000',
             '--user-data-dir=' + os.path.join(folder, 'profile'), '--dump-dom', 'file://' + path + address]
    if os.geteuid() == 0:
        # As root the browser starts in no other way; the page is one that this test wrote.
        words.insert(1, '--no-sandbox')
    ran = subprocess.run(words, capture_output=True, check=False, timeout=60)
    shown = ran.stdout.decode('utf-8', 'replace')
    if '</html>' not in shown:
        raise NoBrowser('it does not start: %s' % ran.stderr.decode('utf-8', 'replace')[-600:])
    return json.loads(base64.b64decode(TOLD.search(shown).group(1)).decode('utf-8'))
