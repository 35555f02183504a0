"""Drives a page of trace_plot in a headless Chromium, where there is one."""

import html
import json
import os
import re
import shutil
import subprocess
import sys
import tempfile

from tool_runner import TOOLS

NAMES = ("chromium", "chromium-browser", "chromium-headless-shell", "google-chrome", "chrome")
BROWSER = os.environ.get("CHROMIUM") or next(filter(None, map(shutil.which, NAMES)), None)
DRIVER = """<script>
window.requestAnimationFrame = call => setTimeout(call);
const drawn = () => new Promise(done => setTimeout(done, 20));
const pointer = (kind, section, at, more = {}) => section.plot.dispatchEvent(
  new PointerEvent(kind, {pointerId: 1, pointerType: "mouse", button: 0, bubbles: true, clientX:
    section.plot.getBoundingClientRect().left + section.x(at), ...more}));
const key = name => dispatchEvent(new KeyboardEvent("keydown", {key: name}));
for (const section of sections) section.plot.setPointerCapture = () => {};
const faults = [];
addEventListener("error", event => faults.push(event.message));
(async () => {
  let answer;
  try { answer = await (async () => { %s })(); } catch (fault) { faults.push(String(fault)); }
  document.body.textContent = JSON.stringify({answer, faults});
})();
</script></body>"""


def page_of(trace, *options):
    """The page of a trace."""
    made = subprocess.run([sys.executable, "-B", TOOLS / "trace_plot", "--html", trace, *options],
                          capture_output=True, encoding="utf-8", check=True)
    return made.stdout


def drive(page, script, width=1100):
    """What a script returns that runs in a page, in a window of a width."""
    with tempfile.TemporaryDirectory() as folder:
        path = os.path.join(folder, "page.html")
        with open(path, "w", encoding="utf-8") as file:
            file.write(page.replace("</body>", DRIVER % script))
        ran = subprocess.run(
            [BROWSER, "--headless", "--no-sandbox", "--disable-gpu", "--dump-dom",
             f"--user-data-dir={folder}/user", f"--window-size={width},900",
             "--virtual-time-budget=60000", f"file://{path}"],
            capture_output=True, encoding="utf-8", timeout=120, check=True)
    body = re.search(r"<body>(.*)</body>", ran.stdout, re.DOTALL)[1]
    told = json.loads(html.unescape(body))
    assert not told["faults"], told["faults"]
    return told.get("answer")
