"""Chromium without a window, driven by the WebDriver protocol over HTTP, as a person does: by keys
and clicks. Also a line to a server that can be cut."""
import asyncio
import contextlib
import json
import os
import pathlib
import signal
import subprocess
import tempfile
import threading
import time
import unittest
import urllib.error
import urllib.request

from room import PATIENCE, free_port

OPENER = urllib.request.build_opener(urllib.request.ProxyHandler({}))

# What WebDriver calls the id of an element, and keys without a letter.
ELEMENT = 'element-6066-11e4-a52e-4f735466cecf'
KEYS = {'Backspace': '\ue003', 'Tab': '\ue004', 'Enter': '\ue007', 'Shift': '\ue008',
        'Control': '\ue009', 'Alt': '\ue00a', 'Escape': '\ue00c', 'Space': ' ',
        'PageUp': '\ue00e', 'PageDown': '\ue00f', 'End': '\ue010', 'Home': '\ue011',
        'ArrowLeft': '\ue012', 'ArrowUp': '\ue013', 'ArrowRight': '\ue014',
        'ArrowDown': '\ue015', 'Delete': '\ue017'}


class Unmet(Exception):
    """What the browser could not do, in its driver's words."""


class Stale(Unmet):
    """The page put another element in the place of the one that was found."""


def until(holds, seconds=PATIENCE):
    """Waits until something holds, so long at most; gives what it gave last."""
    end = time.monotonic() + seconds
    while not (found := holds()) and time.monotonic() < end:
        time.sleep(0.05)
    return found


def of_module(*size):
    """A browser that the tests of a module share, and which ends with them."""
    folder = unittest.enterModuleContext(
        tempfile.TemporaryDirectory(ignore_cleanup_errors=True))
    browser = unittest.enterModuleContext(Browser(folder))
    if size:
        browser.size(*size)
    return browser


class Browser:
    """A session of a browser of its own, which ends with the `with` statement."""

    def __init__(self, folder):
        self.address = f'http://127.0.0.1:{free_port()}'
        self.log = (pathlib.Path(folder) / 'chromedriver.log').open('wb')
        self.process = subprocess.Popen(['chromedriver', f'--port={self.address.split(":")[-1]}'],
                                        stdin=subprocess.DEVNULL, stdout=self.log,
                                        stderr=subprocess.STDOUT, start_new_session=True)
        self.session = ''
        try:
            assert until(self.is_ready), 'chromedriver does not answer'
            self.begin(folder)
        except BaseException:
            self.end()
            raise

    def begin(self, folder):
        """Begins a session, and once more where a busy machine takes longer to start a browser than
        the driver waits."""
        for nth in range(2):
            words = ['--headless=new', '--no-sandbox', '--disable-gpu', '--disable-dev-shm-usage',
                     '--no-proxy-server', '--hide-scrollbars', '--window-size=1280,720',
                     f'--user-data-dir={folder}/profile{nth}']
            patience = int(1000 * PATIENCE)  # milliseconds, where a busy machine takes as long
            wanted = {'alwaysMatch': {'browserName': 'chrome',
                                      'timeouts': {'script': patience, 'pageLoad': patience},
                                      'goog:chromeOptions': {'args': words}}}
            try:
                started = self.send('POST', '', capabilities=wanted)
                self.session = f'/{started["sessionId"]}'
                return
            except Unmet:
                if nth:
                    raise

    def __enter__(self):
        return self

    def __exit__(self, *_):
        try:
            self.send('DELETE', '')
        finally:
            self.end()

    def end(self):
        """Ends what was started, the browser too where it is left."""
        os.killpg(self.process.pid, signal.SIGKILL)
        self.process.wait()
        self.log.close()

    def is_ready(self):
        try:
            with OPENER.open(f'{self.address}/status', timeout=5) as answer:
                return json.load(answer)['value']['ready']
        except OSError:
            return False

    def send(self, method, path, **parameters):
        body = json.dumps(parameters).encode() if method == 'POST' else None
        request = urllib.request.Request(f'{self.address}/session{self.session}{path}', body,
                                         {'Content-Type': 'application/json'}, method=method)
        try:
            with OPENER.open(request, timeout=PATIENCE) as answer:
                return json.load(answer)['value']
        except urllib.error.HTTPError as error:
            value = json.load(error)['value']
            kind = Stale if value['error'] == 'stale element reference' else Unmet
            raise kind(value['message'].split('\n')[0]) from None

    def open(self, url):
        """Opens an address in this tab, and gives the tab."""
        self.send('POST', '/url', url=url)
        return self.send('GET', '/window')

    def tab(self, url):
        """Opens an address in a tab of its own, and gives the tab."""
        tab = self.send('POST', '/window/new', type='tab')['handle']
        self.turn_to(tab)
        self.open(url)
        return tab

    def turn_to(self, tab):
        self.send('POST', '/window', handle=tab)

    def close(self, tab, then):
        """Closes a tab, and turns to another."""
        self.turn_to(tab)
        self.send('DELETE', '/window')
        self.turn_to(then)

    def run(self, script, *values):
        """What a script in the page returns."""
        return self.send('POST', '/execute/sync', script=script, args=list(values))

    def size(self, width, height):
        """Gives the page a size, whatever the window's frame takes, and waits until it has it."""
        frame = [0, 0]

        def fits():
            self.send('POST', '/window/rect', width=width + frame[0], height=height + frame[1])
            outer, seen = self.run('return [[outerWidth, outerHeight], [innerWidth, innerHeight]]')
            frame[:] = (max(0, one - other) for one, other in zip(outer, seen))
            return seen == [width, height]
        until(fits)

    def picture(self):
        """The page as a picture, in base64 of PNG."""
        return self.send('GET', '/screenshot')

    # ---- as a person does

    def find(self, css, seconds=PATIENCE):
        """The element that a selector names first, waited for."""
        return until(lambda: next(iter(self.all(css)), None), seconds) or self.miss(css)

    def miss(self, css):
        raise Unmet(f'there is no {css} on the page')

    def all(self, css):
        """The elements that a selector names."""
        found = self.send('POST', '/elements', using='css selector', value=css)
        return [it[ELEMENT] for it in found]

    def at(self, css, method, what):
        """Asks something of an element; again where the page redraws between the two requests."""
        for _ in range(9):
            with contextlib.suppress(Stale):
                return self.send(method, f'/element/{self.find(css)}/{what}')
        return self.send(method, f'/element/{self.find(css)}/{what}')

    def text(self, css):
        """What is read of an element, as it is shown."""
        return self.at(css, 'GET', 'text')

    def texts(self, css):
        """What is read of each element; one that went away meanwhile is left out."""
        found = []
        for it in self.all(css):
            with contextlib.suppress(Unmet):
                found.append(self.send('GET', f'/element/{it}/text'))
        return found

    def is_shown(self, css):
        """Whether one of these elements is shown."""
        return self.run('return [...document.querySelectorAll(arguments[0])]'
                        '.some((it) => it.checkVisibility())', css)

    def click(self, css):
        """Clicks the middle of an element, which has to be seen and not covered."""
        self.at(css, 'POST', 'click')

    def click_at(self, css, x, y):
        """Clicks so many pixels right of and below the middle of an element."""
        move = {'type': 'pointerMove', 'duration': 0, 'x': x, 'y': y,
                'origin': {ELEMENT: self.find(css)}}
        act = [{'type': it, 'button': 0} for it in ('pointerDown', 'pointerUp')]
        self.act({'type': 'pointer', 'id': 'mouse', 'actions': [move, *act]})

    def type(self, text):
        """Types a text where the keys go; what no keyboard has comes as by an input method."""
        if max(text, default='') > '\uffff':
            self.devtools('Input.insertText', text=text)
        elif text:
            active = self.send('GET', '/element/active')[ELEMENT]
            self.send('POST', f'/element/{active}/value', text=text)

    def press(self, *names):
        """Presses keys one after another, by letter or name; Control+Enter is one press."""
        self.act(typing([it for name in names for it in chord(name)]))

    def act(self, source):
        self.send('POST', '/actions', actions=[source])

    # ---- what is around the page

    def devtools(self, command, **parameters):
        """A command of the browser's DevTools protocol."""
        return self.send('POST', '/goog/cdp/execute', cmd=command, params=parameters)

    def stand_at(self, latitude, longitude, accuracy=10):
        """Gives the page leave to ask where it is, and the place."""
        self.devtools('Browser.grantPermissions', permissions=['geolocation'])
        self.devtools('Emulation.setGeolocationOverride', latitude=latitude, longitude=longitude,
                      accuracy=accuracy)

    def spent(self):
        """The seconds of a processor that the page took so far."""
        self.devtools('Performance.enable', timeDomain='threadTicks')
        metrics = self.devtools('Performance.getMetrics')['metrics']
        return next(it['value'] for it in metrics if it['name'] == 'TaskDuration')

    def cheapest(self, times, work):
        """The least seconds of a processor that the page took for some work, done so often: neither
        what else runs on the machine counts, nor what the page does the first time."""
        found = []
        for _ in range(times):
            before = self.spent()
            work()
            found.append(self.spent() - before)
        return min(found)

    def paper(self, **parameters):
        """The page as it is printed, in base64 of PDF; A4 by default."""
        size = {'width': 21.0, 'height': 29.7}
        return self.send('POST', '/print', **({'page': size} | parameters))


def stroke(key):
    return [{'type': 'keyDown', 'value': key}, {'type': 'keyUp', 'value': key}]


def chord(name):
    """A key with those that are held meanwhile."""
    *held, key = [KEYS.get(it, it) for it in name.split('+')] if len(name) > 1 else [name]
    downs = [{'type': 'keyDown', 'value': it} for it in held]
    ups = [{'type': 'keyUp', 'value': it} for it in reversed(held)]
    return [*downs, *stroke(key), *ups]


def typing(actions):
    return {'type': 'key', 'id': 'keyboard', 'actions': actions}


# ---- a line that can be cut


class Line:
    """Hands connections on to an address of this machine, until it is cut: then all of them are
    broken and new ones are refused. `with Line(('127.0.0.2', port), port)` stands between a browser
    at http://localhost:port/ and a server at 127.0.0.2:port, which is asked by the same name."""

    def __init__(self, to, port=None):
        self.to, self.port = to, port or free_port()
        self.is_cut, self.left, self.pairs = False, None, set()
        self.loop = asyncio.new_event_loop()
        self.thread = threading.Thread(target=self.loop.run_forever, daemon=True)

    def __enter__(self):
        self.thread.start()
        self.server = self.done(asyncio.start_server(self.carry, '127.0.0.1', self.port))
        return self

    def __exit__(self, *_):
        self.done(self.end())
        self.loop.call_soon_threadsafe(self.loop.stop)
        self.thread.join(10)
        if not self.loop.is_running():
            self.loop.close()

    def done(self, work):
        """What some work of the line's own thread gives."""
        return asyncio.run_coroutine_threadsafe(work, self.loop).result(PATIENCE)

    async def end(self):
        """Ends all that it does."""
        self.break_all()
        self.server.close()
        others = asyncio.all_tasks() - {asyncio.current_task()}
        for it in others:
            it.cancel()
        await asyncio.gather(*others, return_exceptions=True)

    async def carry(self, near_reader, near):
        """One connection, both ways, until its end or that of the proxy."""
        with contextlib.suppress(asyncio.CancelledError):
            await self.relay(near_reader, near)

    async def relay(self, near_reader, near):
        """One connection, both ways."""
        far = None
        if not self.is_cut:
            with contextlib.suppress(OSError):
                far_reader, far = await asyncio.open_connection(*self.to)
        if far is None or self.is_cut:
            near.transport.abort()
            return
        self.pairs.add((near, far))
        await asyncio.gather(self.pump(near_reader, far), self.pump(far_reader, near))
        self.pairs.discard((near, far))
        near.close()
        far.close()

    async def pump(self, reader, writer):
        """Carries bytes one way until they end, or until so many were carried on this line."""
        with contextlib.suppress(OSError):
            while piece := await reader.read(65536):
                if self.left is not None and len(piece) >= self.left:
                    writer.write(piece[:self.left])
                    self.break_all()
                    return
                if self.left is not None:
                    self.left -= len(piece)
                writer.write(piece)
                await writer.drain()
            writer.write_eof()

    def break_all(self):
        """Breaks each connection where it stands: the server still gets what went before."""
        self.is_cut, self.left = True, None
        for near, far in self.pairs:
            near.transport.abort()
            far.close()
        self.pairs.clear()

    def cut(self, after=None):
        """Breaks all connections, now or once so many bytes more were carried, and every new one
        until it is mended."""
        async def work():
            if after is None:
                self.break_all()
            else:
                self.left = after
        self.done(work())

    def mend(self):
        async def work():
            self.is_cut, self.left = False, None
        self.done(work())
