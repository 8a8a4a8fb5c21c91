#!/usr/bin/env python3
"""Looks at the command's pages in a headless Chromium, as a person does: marks, pointer, clicks, keys, a phone's width, print, dark mode
and contrast. What is not as it should be ends it with 1. Screenshots go to target/browser. tools/browser.sh finds the browser.
  browser.py CHROMIUM COMMAND FOLDER
"""

import base64
import fcntl
import json
import os
import select
import struct
import subprocess
import sys
import tempfile
import time


class Browser:
    """A browser that is driven through its debugging pipe."""

    def __init__(self, program, profile):
        ours, theirs = os.pipe(), os.pipe()
        # Where the pipe's ends lie is fixed: 3 is read by the browser, and 4 is written.
        read = fcntl.fcntl(ours[0], fcntl.F_DUPFD, 20)
        write = fcntl.fcntl(theirs[1], fcntl.F_DUPFD, 20)

        def set_up():
            os.dup2(read, 3)
            os.dup2(write, 4)

        options = ["--headless", "--no-sandbox", "--disable-gpu", "--disable-dev-shm-usage", "--remote-debugging-pipe"]
        options += ["--no-first-run", "--hide-scrollbars", f"--user-data-dir={profile}", "about:blank"]
        quiet = subprocess.DEVNULL
        self.process = subprocess.Popen(
            [program, *options], preexec_fn=set_up, pass_fds=(3, 4), stdin=quiet, stdout=quiet, stderr=quiet
        )
        os.close(ours[0])
        os.close(theirs[1])
        os.close(read)
        os.close(write)
        self.to, self.come = os.fdopen(ours[1], "wb", buffering=0), os.fdopen(theirs[0], "rb", buffering=0)
        self.waiting, self.number, self.events = b"", 0, []

    def answer(self):
        while b"\0" not in self.waiting:
            if not select.select([self.come], [], [], 60)[0]:
                raise SystemExit("browser.py: the browser says nothing")
            more = os.read(self.come.fileno(), 1 << 20)
            if not more:
                raise SystemExit("browser.py: the browser ended")
            self.waiting += more
        message, self.waiting = self.waiting.split(b"\0", 1)
        return json.loads(message)

    def call(self, method, session=None, **params):
        self.number += 1
        call = {"id": self.number, "method": method, "params": params}
        if session:
            call["sessionId"] = session
        self.to.write(json.dumps(call).encode() + b"\0")
        while True:
            message = self.answer()
            if message.get("id") != self.number:
                self.events.append(message)
                continue
            if "error" in message:
                raise SystemExit(f"browser.py: {method}: {message['error']}")
            return message["result"]

    def close(self):
        self.process.terminate()
        self.process.wait(timeout=20)


class Page:
    """A page in the browser."""

    def __init__(self, browser, width=1100, height=900):
        self.browser = browser
        self.target = browser.call("Target.createTarget", url="about:blank")["targetId"]
        self.session = browser.call("Target.attachToTarget", targetId=self.target, flatten=True)["sessionId"]
        for domain in ("Page", "Runtime", "Network", "Log"):
            self.call(f"{domain}.enable")
        self.size(width, height)

    def call(self, method, **params):
        return self.browser.call(method, self.session, **params)

    def size(self, width, height, mobile=False):
        self.call("Emulation.setDeviceMetricsOverride", width=width, height=height, deviceScaleFactor=1, mobile=mobile)

    def media(self, media="", scheme="light"):
        features = [{"name": "prefers-color-scheme", "value": scheme}]
        self.call("Emulation.setEmulatedMedia", media=media, features=features)

    def open(self, path, has_scripts=True):
        """Opens a file; the seconds until it is loaded and drawn."""
        begun = time.time()
        self.browser.events.clear()
        self.call("Page.navigate", url=f"file://{path}")
        while True:
            events = [event.get("method") for event in self.browser.events]
            if "Page.loadEventFired" in events:
                break
            self.browser.events.append(self.browser.answer())
        if has_scripts:
            self.run("new Promise(done => requestAnimationFrame(() => requestAnimationFrame(done)))")
        return time.time() - begun

    def run(self, script):
        """What a script comes to."""
        answer = self.call("Runtime.evaluate", expression=script, awaitPromise=True, returnByValue=True)
        if "exceptionDetails" in answer:
            raise SystemExit(f"browser.py: {script}: {answer['exceptionDetails']}")
        return answer["result"].get("value")

    def place(self, item):
        """The middle of an element, scrolled into view."""
        script = f"(() => {{ const item = {item}; item.scrollIntoView({{block: 'center', inline: 'nearest'}});"
        script += "const box = item.getBoundingClientRect();"
        script += "return [box.left + Math.min(box.width / 2, 60), box.top + box.height / 2]; })()"
        return self.run(script)

    def pointer(self, kind, item, **more):
        x, y = self.place(item) if isinstance(item, str) else item
        self.call("Input.dispatchMouseEvent", type=kind, x=x, y=y, **more)

    def hover(self, item):
        self.pointer("mouseMoved", item)

    def click(self, item):
        self.hover(item)
        for kind in ("mousePressed", "mouseReleased"):
            self.pointer(kind, item, button="left", clickCount=1)

    def key(self, key, text=""):
        codes = {"Tab": 9, "Enter": 13, "Escape": 27, "End": 35, "Home": 36}
        codes |= {"ArrowLeft": 37, "ArrowUp": 38, "ArrowRight": 39, "ArrowDown": 40}
        code = codes.get(key, 0)
        more = {"text": text or ("\r" if key == "Enter" else "")}
        self.call("Input.dispatchKeyEvent", type="keyDown", key=key, code=key, windowsVirtualKeyCode=code, **more)
        self.call("Input.dispatchKeyEvent", type="keyUp", key=key, code=key, windowsVirtualKeyCode=code)

    def scripts(self, are_on):
        self.call("Emulation.setScriptExecutionDisabled", value=not are_on)

    def type(self, text):
        self.call("Input.insertText", text=text)

    def shot(self, path):
        image = self.call("Page.captureScreenshot", format="png")["data"]
        with open(path, "wb") as file:
            file.write(base64.b64decode(image))

    def print(self, path):
        """Prints to a file; the bytes."""
        data = base64.b64decode(self.call("Page.printToPDF", printBackground=False, preferCSSPageSize=True)["data"])
        with open(path, "wb") as file:
            file.write(data)
        return data

    def complaints(self):
        """What went wrong in the page, and what it asked for besides itself."""
        found = []
        for event in self.browser.events:
            method, params = event.get("method"), event.get("params", {})
            if method == "Runtime.exceptionThrown" or method == "Log.entryAdded":
                found.append(params)
            if method == "Network.requestWillBeSent" and not params["request"]["url"].startswith("file://"):
                found.append(params["request"]["url"])
        return found


FAILED = []


def expect(what, found, wanted):
    """Compares, and tells where it is otherwise."""
    if found != wanted:
        FAILED.append(what)
        print(f"{what}: found {found!r}, and not {wanted!r}")


# The least contrast of a text with what is behind it, and the text.
CONTRAST = """(() => {
  const canvas = document.createElement('canvas'), pen = canvas.getContext('2d', { willReadFrequently: true });
  canvas.width = canvas.height = 1;
  const seen = {};
  const rgba = colour => seen[colour] || (seen[colour] = (() => {
    pen.clearRect(0, 0, 1, 1); pen.fillStyle = colour; pen.fillRect(0, 0, 1, 1); return [...pen.getImageData(0, 0, 1, 1).data];
  })());
  const light = ([r, g, b]) => {
    const part = v => (v /= 255) <= 0.03928 ? v / 12.92 : ((v + 0.055) / 1.055) ** 2.4;
    return 0.2126 * part(r) + 0.7152 * part(g) + 0.0722 * part(b);
  };
  const behind = item => {
    for (; item; item = item.parentElement) { const c = rgba(getComputedStyle(item).backgroundColor); if (c[3] > 250) return c; }
    return rgba('white');
  };
  let least = [21, ''];
  const texts = document.createTreeWalker(document.body, NodeFilter.SHOW_TEXT);
  for (let count = 0; texts.nextNode() && count < 4000;) {
    const text = texts.currentNode, item = text.parentElement;
    if (!text.data.trim() || item.tagName === 'SCRIPT' || !item.getClientRects().length) continue;
    count++;
    const [one, other] = [light(rgba(getComputedStyle(item).color)), light(behind(item))].sort((a, b) => b - a);
    const ratio = (one + 0.05) / (other + 0.05);
    if (ratio < least[0]) least = [ratio, item.className + ': ' + text.data.trim().slice(0, 30)];
  }
  return least;
})()"""


def contrast(page, name, scheme, media=""):
    page.media(media, scheme)
    ratio, text = page.run(CONTRAST)
    if ratio < 4.5:
        expect(f"{name}: the contrast of {text!r}", round(ratio, 2), "4.5 or more")


def looks(page, name, folder):
    """What every page must be: whole on a phone, readable in the dark, without a request and without a complaint."""
    for scheme in ("light", "dark"):
        contrast(page, f"{name}, {scheme}", scheme)
        page.shot(f"{folder}/{name}-{scheme}.png")
    back = "getComputedStyle(document.body).backgroundColor"
    expect(f"{name}: the ground in the dark", page.run(back), "rgb(23, 23, 27)")
    page.media()
    page.size(360, 740, mobile=True)
    expect(f"{name}: its width on a phone", page.run("document.documentElement.scrollWidth"), 360)
    page.shot(f"{folder}/{name}-phone.png")
    # The width of a sheet of A4 within usual margins.
    page.size(718, 1000)
    contrast(page, f"{name}, on paper", "dark", "print")
    expect(f"{name}: the ground on paper", page.run(back), "rgb(255, 255, 255)")
    expect(f"{name}: its width on paper", page.run("document.documentElement.scrollWidth"), 718)
    page.shot(f"{folder}/{name}-paper.png")
    page.media()
    page.size(1100, 900)
    expect(f"{name}: it is printed", page.print(f"{folder}/{name}.pdf")[:5], b"%PDF-")
    expect(f"{name}: complaints and requests", page.complaints(), [])


# The nodes as the browser has them: version, number, the number of the part that it is marked with, label, rule.
NODES = """[...document.querySelectorAll('section')].flatMap(section => [section.id.replace('-', ' '),
  ...[...section.querySelectorAll('.node')].map(node => [node.dataset.node, node.querySelector('.badge')?.textContent || '-',
    [...node.querySelector('.label').childNodes].filter(n => !n.classList?.contains('badge')).map(n => n.textContent).join('') +
    (node.querySelector('.made')?.textContent || '')].join(' '))])"""

DRAWN = """version 5
0 - ? if [conditional]
1 - > greater than [comparison]
2 - speed
3 - + sum [addition]
4 - 2
5 - ( brackets [section]
6 1 && and [AND]
7 - wet
8 1 || or [OR]
9 - cold
10 - dark
11 - : then and else [conditional]
12 - slow
13 - go
version 6
0 - ? if [conditional]
1 - > greater than [comparison]
2 - speed
3 - + sum [addition]
4 - 2
5 - ( brackets [section]
6 1 || or [OR]
7 1 && and [AND]
8 - wet
9 - cold
10 - dark
11 - : then and else [conditional]
12 - slow
13 - go"""

LIT = """(kind => [...document.querySelectorAll(kind + '.lit,' + kind + '.own')].map(item => item.closest('section') ?
  item.closest('section').id.slice(8) + ':' + item.dataset.node : item.firstChild.textContent).join(' '))"""


def node(version, number):
    return f"document.querySelector('#version-{version} [data-node=\"{number}\"] .label')"


def token(number):
    return f"document.querySelector('[data-token=\"{number}\"]')"


def draw(page, command, folder):
    """The page of one list."""
    path = f"{folder}/draw.html"
    subprocess.run([command, "draw", "-e", "speed > 2 + (wet && cold || dark) ? slow : go", "--at", "5,6", "-o", path], check=True)
    page.open(path)
    expect("the nodes and their marks", "\n".join(page.run(NODES)), DRAWN)
    tokens = "[...document.querySelectorAll('.token.differs')].map(token => token.textContent).join(' ')"
    expect("the marked tokens", page.run(tokens), "&&1 ||1")
    # The brackets under the source stand under what they reach over.
    under = """[...document.querySelectorAll('.bar')].map(bar => [...document.querySelectorAll('.token')].filter(token => {
      const one = bar.getBoundingClientRect(), other = token.getBoundingClientRect();
      return one.left < other.right - 3 && other.left < one.right - 3; }).map(token => token.firstChild.textContent).join(' '))"""
    expect("what stands over each bracket", page.run(under), ["cold || dark", "wet && cold || dark", "wet && cold", "wet && cold || dark"])
    lit = lambda kind: page.run(f"{LIT}('{kind}')")
    page.hover(node(5, 8))
    expect("the piece of a node under the pointer", lit(".token"), "cold || dark")
    expect("the same operator in the other tree", lit(".node"), "5:8 6:6")
    expect("the piece in words", page.run("document.querySelector('.piece').textContent"), "cold || dark")
    page.hover(token(6))
    expect("the nodes of a token under the pointer", lit(".node"), "5:6 6:7")
    page.hover(token(4))
    expect("the nodes of a bracket", lit(".node"), "5:5 6:5")
    page.hover((5, 5))
    expect("nothing without the pointer", lit(".token") + lit(".node"), "")
    page.click(node(6, 6))
    page.hover((5, 5))
    expect("a click keeps the piece", lit(".token"), "wet && cold || dark")
    page.shot(f"{folder}/draw-click.png")
    for scheme in ("dark", "light"):
        contrast(page, f"draw, after a click, {scheme}", scheme)
    page.click(token(9))
    page.hover((5, 5))
    expect("a click on a token keeps its nodes", lit(".node"), "5:10 6:10")
    page.key("Escape")
    expect("Escape lets it go", lit(".token") + lit(".node"), "")
    keys(page, lit)
    looks(page, "draw", folder)
    messages(page, command, folder)


def keys(page, lit):
    """The page by its keys alone."""
    page.run("document.activeElement.blur()")
    page.run("document.querySelector('#version-5 .node').focus()")
    for key, number in [("ArrowDown", 1), ("ArrowDown", 2), ("ArrowRight", 2), ("ArrowLeft", 1), ("End", 13), ("ArrowUp", 12), ("Home", 0)]:
        page.key(key)
        expect(f"the node after {key}", page.run("document.activeElement.dataset.node"), str(number))
    for key in ("End", "ArrowLeft"):
        page.key(key)
    expect("the piece of the node in focus", lit(".token"), "slow : go")
    page.key("Tab")
    expect("the tabulator leads to the next tree", page.run("document.activeElement.closest('section').id"), "version-6")
    page.run("document.querySelector('.token').focus()")
    for _ in range(6):
        page.key("ArrowRight")
    expect("the nodes of the token in focus", lit(".node"), "5:6 6:7")
    page.key("Enter")
    page.run("document.activeElement.blur()")
    expect("Enter keeps them", lit(".node"), "5:6 6:7")
    page.key("Escape")


def messages(page, command, folder):
    """The page of a list that is no tree."""
    path = f"{folder}/none.html"
    subprocess.run([command, "draw", "-e", "d * (a + b] * c", "--at", "4,6", "-o", path], check=True)
    page.open(path)
    said = "[...document.querySelectorAll('.token.said')].map(token => token.textContent).join(' ')"
    expect("the place of a message", page.run(said), "( a + b ]")
    badges = """[...document.querySelectorAll('.bar.said .badge')].filter(badge => {
      const box = badge.getBoundingClientRect(), top = document.elementFromPoint(box.left + box.width / 2, box.top + box.height / 2);
      return top === badge; }).map(badge => badge.textContent).join(' ')"""
    expect("the numbers of the messages under the source", page.run(badges), "1 2 1 2")
    looks(page, "none", folder)


# The operators of the lists below, by their signs, as the command numbers them.
def numbers(command):
    lines = subprocess.run([command, "ops", "--json"], check=True, capture_output=True, text=True).stdout.splitlines()
    return {operator["operator"]: operator["op"] for operator in map(json.loads, lines)}


def archive(path, lists, operators):
    """A plain file of words: each list its version, and then tokens, a number being a variable of that number."""
    words = []
    for version, tokens in lists:
        words.append(version)
        for token in tokens.split():
            is_variable = token.isdigit()
            op = operators["variable."] | 4 << 8 if is_variable else operators[token]
            value = int(token) if is_variable else 0
            words += [0x20000000 | op, 0x40000000, 0x60000000, 0x80000000 | value >> 16, 0xA0000000 | value & 0xFFFF]
    with open(path, "wb") as file:
        file.write(struct.pack(f"<{len(words)}I", *words))


SHOWN = "[...document.querySelectorAll('.entry')].filter(entry => entry.getClientRects().length).map(entry => entry.id).join(' ')"
OPEN = "[...document.querySelectorAll('.entry[open]')].map(entry => entry.id).join(' ')"


def report(page, command, folder):
    """The page of an archive."""
    path = f"{folder}/report.html"
    some = [(4, "1 ? 2 : 3 ? 4 : 5"), (5, "1 && 2 || 3"), (5, "7 > 8 == 9"), (4, "1 && 2 || 3 ? 4 : 5 ? 6 : 7"), (4, "1 : 2"), (4, "1 + 2")]
    archive(f"{folder}/some.words", some, numbers(command))
    subprocess.run([command, "report", "some.words", "--to", "6", "-o", path], cwd=folder, stderr=subprocess.DEVNULL)
    page.open(path)
    titles = "[...document.querySelectorAll('.group h2')].map(title => title.firstChild.textContent.trim())"
    groups = ["Nested conditionals", "AND and OR", "Comparisons and equality", "Several of these rules", "Trees no longer"]
    expect("the groups", page.run(titles), groups)
    expect("the contents", page.run("[...document.querySelectorAll('nav a')].map(link => link.textContent)"), groups)
    expect("the lists that are shown", page.run(SHOWN), "d0 d1 d2 d3 d4")
    expect("nothing is open", page.run(OPEN), "")
    page.click("document.querySelector('#d3 summary')")
    expect("a click opens a list", page.run(OPEN), "d3")
    marks = "[...document.querySelectorAll('#d3 mark')].map(mark => mark.textContent).join(' ')"
    expect("the marks of a list", page.run(marks), "&&2 ||2 ?1 :1 ?1")
    tell = "[...document.querySelectorAll('#d3 dd')].map(text => text.textContent)"
    old = "(variable.1 && (variable.2 || variable.3) ? variable.4 : variable.5) ? variable.6 : variable.7"
    new = "(variable.1 && variable.2) || variable.3 ? variable.4 : (variable.5 ? variable.6 : variable.7)"
    expect("its readings", page.run(tell)[1:3], [old, new])
    page.shot(f"{folder}/report-open.png")
    search(page)
    page.run("document.querySelectorAll('.entry').forEach(entry => { entry.open = true; })")
    looks(page, "report", folder)
    without_script(page, path)


def search(page):
    """The search, and the page by its keys alone."""
    wait = "new Promise(done => setTimeout(done, 300))"
    page.run("document.activeElement.blur()")
    page.key("/", "/")
    expect("/ leads to the search", page.run("document.activeElement.type"), "search")
    page.type("variable.7 >  VARIABLE.8")
    page.run(wait)
    expect("what is found", page.run(SHOWN), "d2")
    expect("how many", page.run("document.querySelector('output').textContent"), "1 of 5")
    expect("groups without a list are not shown", page.run("document.querySelectorAll('.group:not([hidden])').length"), 1)
    page.key("ArrowDown")
    expect("an arrow leads to the first list", page.run("document.activeElement.parentElement.id"), "d2")
    page.key("Enter")
    expect("Enter opens it", page.run(OPEN), "d2 d3")
    page.key("ArrowUp")
    page.key("Escape")
    page.run(wait)
    expect("Escape shows all again", page.run(SHOWN), "d0 d1 d2 d3 d4")
    page.key("ArrowDown")
    page.key("ArrowDown")
    expect("arrows lead from list to list", page.run("document.activeElement.parentElement.id"), "d1")
    page.click("document.querySelector('nav a[href=\"#only-old\"]')")
    expect("the contents lead to a group", page.run("location.hash"), "#only-old")
    page.click("document.querySelector('.close')")
    expect("all are closed", page.run(OPEN), "")


def without_script(page, path):
    """All lists are there without the script."""
    page.scripts(False)
    page.open(path, has_scripts=False)
    expect("without a script: the lists", page.run(SHOWN), "d0 d1 d2 d3 d4")
    expect("without a script: no search", page.run("document.querySelector('.search').getClientRects().length"), 0)
    page.click("document.querySelector('#d1 summary')")
    expect("without a script: a click opens a list", page.run(OPEN), "d1")
    page.scripts(True)


def many(page, command, folder):
    """Ten thousand differences."""
    path = f"{folder}/many.html"
    kinds = [(4, "{0} ? {1} : {2} ? 4 : 5"), (5, "{0} && {1} || {2} && 3 || 4"), (5, "{0} > {1} == {2}")]
    made = [(kinds[i % 3][0], kinds[i % 3][1].format(i, i + 1, i + 2)) for i in range(10_000)]
    archive(f"{folder}/many.words", made, numbers(command))
    begun = time.time()
    subprocess.run([command, "report", "many.words", "--to", "6", "-o", path], cwd=folder, stderr=subprocess.DEVNULL)
    wrote = time.time() - begun
    loaded = page.open(path)
    expect("ten thousand lists", page.run("document.querySelectorAll('.entry').length"), 10_000)
    timed = """(async () => {
      const begun = performance.now(), box = document.querySelector('input');
      box.value = 'variable.9998 '; box.dispatchEvent(new Event('input'));
      await new Promise(done => setTimeout(done, 100));
      await new Promise(done => requestAnimationFrame(() => setTimeout(done)));
      return performance.now() - begun - 100; })()"""
    searched = page.run(timed) / 1000
    expect("what is found of ten thousand", page.run("document.querySelector('output').textContent"), "3 of 10000")
    again = page.run(timed.replace("variable.9998 ", "")) / 1000
    opening = """(async () => { const begun = performance.now(); document.querySelector('.open').click();
      await new Promise(done => requestAnimationFrame(() => setTimeout(done))); return performance.now() - begun; })()"""
    opened = page.run(opening) / 1000
    page.click("document.querySelector('nav a[href=\"#comparison\"]')")
    place = page.run("document.querySelector('#comparison').getBoundingClientRect().top")
    expect("the contents lead to the last group of ten thousand", 0 <= place < 300, True)
    size = os.path.getsize(path) / 1e6
    print(f"ten thousand differences: {size:.1f} MB written in {wrote:.1f} s, loaded in {loaded:.1f} s, ", end="")
    print(f"searched in {searched:.2f} s and again in {again:.2f} s, all opened in {opened:.2f} s")
    # Many times what a machine takes that does nothing else: a page that is not usable any more takes longer still.
    for what, took, most in [("load", loaded, 60), ("search", searched, 10), ("search again", again, 10), ("open all", opened, 30)]:
        if took > most:
            expect(f"seconds to {what} ten thousand lists", took, f"{most} at the most")


def long(page, command, folder):
    """The page of a list of several lines and many parts."""
    path = f"{folder}/long.html"
    part = "(number_%d && second || third) * (fourth ? 5 : sixth ? seventh : 8)"
    source = " + ".join(part % number for number in range(12))
    subprocess.run([command, "draw", "-e", source, "--at", "4,6", "-o", path], check=True)
    page.open(path)
    expect("the sentences of many parts", page.run("document.querySelectorAll('.part').length"), 24)
    colours = "new Set([...document.querySelectorAll('.part .badge:first-child')].map(b => getComputedStyle(b).backgroundColor)).size"
    expect("the colours of many parts", page.run(colours), 24)
    wide = "[...document.querySelectorAll('.cells')].every(line => line.scrollWidth <= document.querySelector('.figure').clientWidth)"
    expect("the figure fits its frame on a desk", page.run(wide), True)
    looks(page, "long", folder)


def main():
    program, command, folder = sys.argv[1:]
    with tempfile.TemporaryDirectory(ignore_cleanup_errors=True) as profile:
        browser = Browser(program, profile)
        try:
            page = Page(browser)
            draw(page, command, folder)
            long(page, command, folder)
            report(page, command, folder)
            many(page, command, folder)
        finally:
            browser.close()
    if FAILED:
        raise SystemExit(f"browser.py: {len(FAILED)} things are not as they should be")


main()
