#!/usr/bin/env python3
"""Tries the page of tools/map.py in a real Chromium that nobody sees: moves, zooms, clicks, types and drops, and looks
at what the page then shows. Needs Debian's `chromium`, which it talks to over a pipe, and nothing else.

Use: look_in_browser.py PROGRAM EXTRACT FOLDER [CHANGE]

It makes a store of the extract by PROGRAM (osmroad), serves it, and writes pictures to the FOLDER. CHANGE, a change of
the extract in OPL under any name, is dropped onto the page. It prints what was seen and how long it took; where
something isn't as it must be, it says so, and its status is 1.
"""
import base64
import json
import os
import re
import select
import shutil
import signal
import subprocess
import sys
import tempfile
import time

TOP = os.path.join(os.path.dirname(os.path.realpath(__file__)), '..')
SECONDS = 120


class Wrong(Exception):
    """Something isn't as it must be."""


class Browser:
    """A Chromium with one page, which is told by the DevTools protocol what to do: messages that end in a zero byte."""

    def __init__(self, room):
        inward, self.outward = os.pipe()
        self.inward, outward = os.pipe()
        name = shutil.which('chromium') or shutil.which('chromium-browser')
        if name is None:
            raise Wrong('there is no chromium: apt-get install chromium')
        words = [name, '--headless=new', '--no-sandbox', '--remote-debugging-pipe', '--disable-gpu', '--no-first-run',
                 '--disable-background-networking', '--disable-extensions', f'--user-data-dir={room}', 'about:blank']
        self.process = subprocess.Popen(
            ['bash', '-c', f'exec "$@" 3<&{inward} 4>&{outward}', 'chromium', *words], pass_fds=(inward, outward),
            stdout=subprocess.DEVNULL, stderr=subprocess.DEVNULL, start_new_session=True)
        os.close(inward)
        os.close(outward)
        self.count, self.rest, self.events, self.session = 0, b'', [], None
        targets = self.tell('Target.getTargets')['targetInfos']
        target = next(one['targetId'] for one in targets if one['type'] == 'page')
        self.session = self.tell('Target.attachToTarget', targetId=target, flatten=True)['sessionId']
        self.tell('Performance.enable', timeDomain='threadTicks')
        for domain in ('Page', 'Runtime', 'Network', 'Log'):
            self.tell(f'{domain}.enable')

    def message(self):
        until = time.monotonic() + SECONDS
        while b'\0' not in self.rest:
            if not select.select([self.inward], [], [], max(0, until - time.monotonic()))[0]:
                raise Wrong(f'the browser says nothing for {SECONDS} seconds')
            part = os.read(self.inward, 1 << 20)
            if not part:
                raise Wrong('the browser has ended')
            self.rest += part
        line, _, self.rest = self.rest.partition(b'\0')
        return json.loads(line)

    def tell(self, method, **given):
        self.count += 1
        message = {'id': self.count, 'method': method, 'params': given}
        if self.session:
            message['sessionId'] = self.session
        os.write(self.outward, json.dumps(message).encode() + b'\0')
        while True:
            reply = self.message()
            if reply.get('id') == self.count:
                if 'error' in reply:
                    raise Wrong(f'{method}: {reply["error"]["message"]}')
                return reply['result']
            self.events.append(reply)

    def value(self, code):
        """What the code gives on the page."""
        got = self.tell('Runtime.evaluate', expression=code, returnByValue=True, awaitPromise=True)
        if 'exceptionDetails' in got:
            raise Wrong(f'{code}: {got["exceptionDetails"]["exception"].get("description", "fails")}')
        return got['result'].get('value')

    def busy(self):
        """The processor seconds that the page's thread took so far, whatever else the machine did."""
        metrics = self.tell('Performance.getMetrics')['metrics']
        return next(one['value'] for one in metrics if one['name'] == 'TaskDuration')

    def wait(self, code, what):
        until = time.monotonic() + SECONDS
        while not (got := self.value(code)):
            if time.monotonic() > until:
                said = self.value('byId("said").textContent')
                raise Wrong(f'{what}: not after {SECONDS} seconds; the page says: {said!r}')
            time.sleep(0.05)
        return got

    def mouse(self, kind, x, y, **more):
        self.tell('Input.dispatchMouseEvent', type=kind, x=x, y=y, **more)

    def click(self, x, y):
        self.mouse('mouseMoved', x, y)
        self.mouse('mousePressed', x, y, button='left', buttons=1, clickCount=1)
        self.mouse('mouseReleased', x, y, button='left', clickCount=1)

    def click_on(self, selector):
        x, y = self.value(f'(b => [b.x + b.width / 2, b.y + b.height / 2])'
                          f'(document.querySelector({json.dumps(selector)}).getBoundingClientRect())')
        self.click(x, y)

    def write_into(self, selector, text):
        self.value(f'(e => {{ e.focus(); e.select(); }})(document.querySelector({json.dumps(selector)}))')
        self.tell('Input.insertText', text=text)

    def size(self, width, height, phone=False):
        self.tell('Emulation.setDeviceMetricsOverride', width=width, height=height, mobile=phone,
                  deviceScaleFactor=2 if phone else 1)
        self.tell('Emulation.setTouchEmulationEnabled', enabled=phone, maxTouchPoints=2)

    def megabytes(self):
        """What the page's scripts hold."""
        usage = self.tell('Runtime.getHeapUsage')
        return (usage['usedSize'] + usage.get('backingStorageSize', 0)) / 1e6

    def picture(self, name):
        self.drawn()
        data = self.tell('Page.captureScreenshot', format='png')['data']
        with open(name, 'wb') as file:
            file.write(base64.b64decode(data))

    def drawn(self):
        self.wait('!wanted && !next', 'the map is drawn')

    def complaints(self, address):
        """Errors of the page's scripts, what its policy forbade, and requests to elsewhere."""
        self.value('1')
        for event in self.events:
            given = event.get('params', {})
            if event['method'] == 'Runtime.exceptionThrown':
                yield given['exceptionDetails'].get('exception', {}).get('description', 'an exception')
            elif event['method'] == 'Log.entryAdded' and not re.search(' 4[0-9][0-9] ', given['entry']['text']):
                yield given['entry']['text']
            elif event['method'] == 'Network.requestWillBeSent':
                where = given['request']['url']
                if not where.startswith((address, 'data:', 'about:')):
                    yield f'a request to {where}'

    def close(self):
        os.killpg(self.process.pid, signal.SIGKILL)
        self.process.wait()


class Trial:
    """What is done to the page, in order."""

    def __init__(self, browser, folder, change):
        self.browser, self.folder, self.change = browser, folder, change

    def picture(self, name):
        self.browser.picture(os.path.join(self.folder, f'{name}.png'))

    def must(self, code, what):
        if not self.browser.value(code):
            raise Wrong(f'{what}: not so; the page says: {self.browser.value("document.body.innerText")[-600:]!r}')
        print(f'  {what}')

    def text(self, selector):
        return self.browser.value(f'document.querySelector({json.dumps(selector)}).innerText').split('\n')[0]

    def timed(self, what, work):
        """Does some work, and tells how long it took, and how long the page's own thread was busy with it."""
        begun, busy = time.monotonic(), self.browser.busy()
        work()
        print(f'  {what}: {time.monotonic() - begun:.2f} s, {self.browser.busy() - busy:.2f} s of them busy')

    def draw(self, code):
        self.browser.value(code)
        self.browser.drawn()

    def open(self, address):
        self.browser.tell('Page.navigate', url=address)
        self.timed('from the address to a drawn map', self.opened)
        self.timed('its closed turns', lambda: self.browser.wait('shown.isSearched', 'closed turns are found'))
        print(f'  {self.text("#counts")}; the scripts hold {self.browser.megabytes():.0f} MB')
        self.must('shown.lines.count > 0', 'there are lines')
        self.picture('whole')

    def opened(self):
        self.browser.wait('typeof byId === "function" && byId("busy").hidden', 'the page has the graph')
        self.browser.drawn()

    def move(self):
        browser = self.browser
        x, y = browser.value('[width / 2, height / 2]')
        self.timed('all of it drawn', lambda: self.draw('fit(shown.lines.extent); redraw()'))
        before = browser.value('view.scale')
        for _ in range(6):
            browser.mouse('mouseWheel', x, y, deltaX=0, deltaY=-120)
        browser.drawn()
        self.must(f'view.scale > 3 * {before}', 'the wheel zooms')
        self.timed('a part of it drawn', lambda: self.draw('redraw()'))
        before = browser.value('view.x')
        browser.value('''globalThis.ticks = [];
            (function tick(now) { ticks.push(now); requestAnimationFrame(tick); })(0); 1''')
        self.timed('a drag of 60 moves', lambda: self.drag(x, y))
        self.must(f'Math.abs((view.x - {before}) * view.scale - 236) < 8', 'a drag moves the map')
        gaps = browser.value('ticks.slice(2).map((t, at) => t - ticks[at + 1]).sort((a, b) => a - b)')
        print(f'  frames while it is dragged: median {gaps[len(gaps) // 2]:.0f} ms, longest {gaps[-1]:.0f} ms')
        self.picture('near')

    def drag(self, x, y):
        browser = self.browser
        browser.mouse('mousePressed', x, y, button='left', buttons=1, clickCount=1)
        for step in range(60):
            browser.mouse('mouseMoved', x - 4 * step, y + 2 * step, button='left', buttons=1)
        browser.mouse('mouseReleased', x - 240, y + 120, button='left', clickCount=1)
        browser.drawn()

    def look(self):
        browser = self.browser
        browser.click_on('[data-tab=look]')
        at = browser.value('''(() => { const line = shown.lines.count >> 1;
            fit(boxOf(shown.graph, [shown.lines.piece[line]]), 1);
            const p = linePoints(line), at = (p.length >> 1) - 1, [u, v] = [p[at], p[at + 1]];
            return [(u[0] + v[0]) / 2, (u[1] + v[1]) / 2]; })()''')
        browser.drawn()
        browser.click(*at)
        browser.wait('byId("seen").innerText.includes("piece")', 'a click on a road tells its piece')
        print(f'  a click on a road: {self.text("#seen tr")}')
        self.picture('look')

    def closed_turn(self):
        browser = self.browser
        at = browser.value('''(() => { const turn = shown.turns[0]; if (!turn) return null; const place = shown.graph;
            const p = [place.lon(turn.at(-1), 0), place.lat(turn.at(-1), 0)]; fit([...p, ...p], 1.5);
            return turnPoints(turn).at(-1); })()''')
        if at is None:
            print('  there is no closed turn')
            return
        browser.click_on('[data-tab=look]')
        browser.drawn()
        browser.click(*at)
        browser.wait('shown.verdict !== null', 'a closed turn has a verdict')
        self.must('shown.tab === "drive" && /^(no|only) /.test(shown.verdict.rule) && shown.verdict.first > 0',
                  'a click on a red turn tells the restriction')
        print(f'  {self.text("#verdict b")}')
        self.picture('closed_turn')

    def drive(self):
        browser = self.browser
        browser.click_on('[data-tab=drive]')
        browser.click_on('[data-act=clear]')
        points = browser.value('''(() => { const l = shown.lines, g = shown.graph;
            const line = l.bothWays.findIndex((both, at) => !both && g.places(l.piece[at]) > 2
                && g.contexts(l.piece[at])[0].arcs.length > 0);
            const piece = l.piece[line], arc = g.contexts(piece)[0].arcs[0]; fit(boxOf(g, [piece, arc]), 0.5);
            const p = piecePoints(g, piece), q = piecePoints(g, arc);
            return [p.at(-2).map((c, at) => 0.3 * c + 0.7 * p.at(-1)[at]),
                q[0].map((c, at) => 0.5 * c + 0.5 * q[1][at])]; })()''')
        browser.drawn()
        browser.click(*points[0])
        browser.wait('shown.verdict !== null', 'a drive of one click is judged')
        first = browser.value('byId("steps").value')
        browser.click(*points[1])
        browser.wait(f'byId("steps").value !== {json.dumps(first)} && shown.verdict !== null',
                     'a second click adds steps')
        print(f'  {browser.value("drivenSteps().length")} steps by two clicks: {self.text("#verdict b")}')
        self.picture('drive')
        browser.click_on('[data-act=undo]')
        browser.click_on('[data-act=flip]')
        browser.wait('shown.verdict && !shown.verdict.legal', 'a drive against a oneway is judged')
        self.must('shown.verdict.rule === "wrong-way"', 'a drive against a oneway breaks wrong-way')
        self.picture('wrong_way')

    def reach(self):
        browser = self.browser
        browser.click_on('[data-tab=reach]')
        browser.value('fit(shown.lines.extent)')
        browser.drawn()
        nodes = browser.value('''(() => { const l = shown.lines, at = part => { let best = null; const wanted = [
            width * part, height * part]; for (const line of nearLines(...wanted, 120)) { const p = linePoints(line)[0];
            const d = Math.hypot(p[0] - wanted[0], p[1] - wanted[1]); if (!best || d < best.d) best = { d, p }; }
            return best?.p ?? wanted; }; return [at(0.4), at(0.6)]; })()''')
        begun = time.monotonic()
        for node in nodes:
            browser.click(*node)
        browser.wait('shown.found !== null && byId("found").innerText', 'two clicks are answered')
        print(f'  two nodes: {self.text("#found b")}, {time.monotonic() - begun:.2f} s')
        self.picture('reach')

    def changes(self):
        browser = self.browser
        browser.click_on('[data-tab=change]')
        browser.write_into('#lines', 'n1 v9 dD\nq1 v2\n')
        browser.click_on('[data-act=apply]')
        browser.wait('byId("changed").innerText.includes("refused")', 'a faulty change is refused')
        self.must('getSelection().toString() === "q1 v2"', 'the line in fault is marked')
        way = browser.value('String(shown.graph.way(shown.graph.pieceCount >> 1))')
        begun = time.monotonic()
        browser.write_into('#lines', f'w{way} v4000000000 dD\n')
        browser.click_on('[data-act=apply]')
        browser.wait('shown.changes && byId("changed").innerText.includes("kept")', 'a change is kept')
        self.must(f'shown.changes.gone.length === 1 && shown.graph.block({way}n) === -1',
                  f'a deletion of w{way} takes it away')
        print(f'  {self.told_changes()} {time.monotonic() - begun:.2f} s')
        browser.click_on('#changed button')
        self.picture('change')
        if self.change:
            self.drop()

    def told_changes(self):
        return self.browser.value('byId("changed").innerText').splitlines()[1]

    def drop(self):
        browser = self.browser
        data = {'items': [], 'files': [os.path.realpath(self.change)], 'dragOperationsMask': 1}
        for kind in ('dragEnter', 'dragOver', 'drop'):
            browser.tell('Input.dispatchDragEvent', type=kind, x=300, y=300, data=data)
            time.sleep(0.2)
        browser.wait('byId("lines").value.length > 20', 'a dropped file is taken')
        begun = time.monotonic()
        browser.value('shown.changes = null')
        browser.click_on('[data-act=apply]')
        browser.wait('shown.changes && byId("changed").innerText.includes("kept")', 'the dropped change is kept')
        print(f'  dropped: {self.told_changes()} {time.monotonic() - begun:.2f} s')
        browser.wait('shown.isSearched', 'closed turns are found again')
        browser.click_on('#changed button')
        self.picture('dropped')

    def phone(self):
        browser = self.browser
        browser.size(390, 844, phone=True)
        browser.value('fit(shown.lines.extent)')
        browser.drawn()
        before = browser.value('view.scale')
        x, y = browser.value('[width / 2, height / 2]')
        for kind, gap in [('touchStart', 30), ('touchMove', 60), ('touchMove', 120), ('touchEnd', 0)]:
            points = [{'x': x - gap, 'y': y, 'id': 0}, {'x': x + gap, 'y': y, 'id': 1}] if gap else []
            browser.tell('Input.dispatchTouchEvent', type=kind, touchPoints=points)
        self.must(f'view.scale > 2 * {before}', 'two fingers zoom')
        browser.click_on('[data-tab=reach]')
        browser.value('forget()')
        browser.drawn()
        browser.tell('Input.dispatchTouchEvent', type='touchStart', touchPoints=[{'x': x, 'y': y}])
        browser.tell('Input.dispatchTouchEvent', type='touchEnd', touchPoints=[])
        self.must('document.documentElement.scrollWidth <= 390', 'nothing is wider than the screen')
        self.picture('phone')


class Served:
    """tools/map.py over a new store of these lines, and its page in a browser; both end with the block."""

    def __init__(self, room, name, program, lines, *words):
        store = os.path.join(room, name)
        subprocess.run([program, store, 'create', '1'], stdin=lines, check=True, stdout=subprocess.DEVNULL)
        begun = time.monotonic()
        tool = os.path.join(TOP, 'tools/map.py')
        self.server = subprocess.Popen([sys.executable, tool, store, '--program', program, *words],
                                       stdout=subprocess.PIPE)
        self.address = self.server.stdout.readline().decode().strip()
        if not self.address.startswith('http://127.0.0.1:'):
            raise Wrong(f'map.py gives no address, but {self.address!r}')
        print(f'  map.py is ready after {time.monotonic() - begun:.2f} s')
        self.browser = Browser(os.path.join(room, f'browser-{name}'))

    def __enter__(self):
        return self

    def stop(self):
        """Ends map.py as Ctrl-C does."""
        self.server.send_signal(signal.SIGINT)
        if self.server.wait(SECONDS) != 0:
            raise Wrong(f'map.py ends with status {self.server.returncode}')

    def __exit__(self, *_):
        self.browser.close()
        if self.server.poll() is None:
            self.server.kill()
            self.server.wait()

    def end(self):
        """Stops map.py, which a click then tells; and looks for complaints of the browser."""
        complaints = list(self.browser.complaints(self.address))
        if complaints:
            raise Wrong(f'{len(complaints)} complaints, the first: {complaints[0]}')
        self.stop()
        self.browser.click_on('[data-tab=drive]')
        self.browser.value('setSteps(["w1.0+"]), 1')
        self.browser.wait('byId("said").textContent.includes("does not answer")',
                          'the page tells that map.py was stopped')


def trial(program, extract, folder, change, room):
    name = os.path.basename(extract).split('.')[0]
    with open(extract, 'rb') as lines, Served(room, name, program, lines, '--opl', extract) as served:
        served.browser.size(1280, 800)
        tried = Trial(served.browser, folder, change)
        tried.open(served.address)
        for part in (tried.move, tried.look, tried.closed_turn, tried.drive, tried.reach, tried.changes, tried.phone):
            part()
        served.end()


def trial_of_nothing(program, room):
    """The page over a store that holds no road."""
    with Served(room, 'nothing', program, subprocess.DEVNULL) as served:
        served.browser.size(1280, 800)
        browser = served.browser
        browser.tell('Page.navigate', url=served.address)
        browser.wait('typeof byId === "function" && byId("busy").hidden && shown.isSearched', 'an empty map is shown')
        browser.click(400, 400)
        browser.value('ACTS.whole(), ACTS.closer(), 1')
        browser.wait('byId("counts").textContent.includes("0 ways") && !byId("said").textContent', 'all is well')
        served.end()
        print('  a store without a road has a page too')


def main(words):
    if not 3 <= len(words) <= 4:
        sys.exit(__doc__)
    program, extract, folder = words[:3]
    os.makedirs(folder, exist_ok=True)
    signal.signal(signal.SIGTERM, lambda *_: sys.exit('look_in_browser: it was told to end'))
    program = os.path.realpath(program)
    with tempfile.TemporaryDirectory(ignore_cleanup_errors=True) as room:
        try:
            trial(program, extract, folder, words[3] if len(words) > 3 else None, room)
            trial_of_nothing(program, room)
        except Wrong as wrong:
            sys.exit(f'look_in_browser: {wrong}')


if __name__ == '__main__':
    main(sys.argv[1:])
