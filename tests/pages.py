"""What the tests of examples/desks share: the companion over a room, signing in as a person does,
and what any page has to be for everyone: contrast, names, focus, size."""
import collections
import contextlib
import subprocess
import sys
import time

from browser import Unmet, until
from room import PLAN, TOP

DESKS = TOP / 'examples' / 'desks'
PLACES = DESKS / 'places.csv'
PAGES = {'taker': 'taker.html', 'desk': 'allocator.html', 'crew': 'crew.html'}
SIGNED = "return [location.pathname, document.querySelector('#refused')?.textContent]"
# All that the browser keeps, as one text.
LEFT = """return new Promise((resolve) => {
  const request = indexedDB.open('desks outbox');
  request.onsuccess = () => {
    const names = ['messages', 'last'];
    const stores = request.result.transaction(names);
    const found = names.map((name) => stores.objectStore(name).getAll());
    stores.oncomplete = () => {
      request.result.close();
      resolve(JSON.stringify([found.map((it) => it.result), { ...localStorage }]));
    };
  };
});"""
TARGET = 44  # pixels, what a finger needs
PHONE = 390, 844


@contextlib.contextmanager
def announced(what, *words):
    """A server of pages, a program of Python; gives the address that it announces, which ends with
    a slash."""
    process = subprocess.Popen([sys.executable, *words], stdin=subprocess.DEVNULL,
                               stdout=subprocess.PIPE, stderr=subprocess.PIPE)
    try:
        line = process.stdout.readline().decode()
        assert line.startswith(f'{what}: '), f'no {what}: {line} {process.stderr.read().decode()}'
        yield line.removeprefix(f'{what}: ').strip()
    finally:
        process.kill()
        process.communicate()


def companion(room_port, plan=PLAN, listen='127.0.0.1:0'):
    """The companion over the room at a port."""
    return announced('desks', DESKS / 'desks.py', f'127.0.0.1:{room_port}', '--plan', plan,
                     '--places', PLACES, '--listen', listen)


def sign_in(browser, address, kind, token):
    """Signs a terminal in, and gives whether its page came. Where a busy machine gives no answer,
    it is asked again, as a person does."""
    browser.open(f'{address}desks/index.html')
    browser.click(f'[value={kind}]')
    browser.click('#token')
    browser.type(token)
    browser.press('Enter')

    def has_come():
        with contextlib.suppress(Unmet):  # as where one page just follows the other
            path, refused = browser.run(SIGNED)
            if refused == 'The room does not answer.':
                browser.run("document.querySelector('#refused').textContent = ''")
                browser.press('Enter')
            return path.endswith(PAGES[kind])
        return False
    return until(has_come)


def time_of(moment):
    """A moment as a page shows it."""
    return time.strftime('%H:%M:%S', time.localtime(moment))


# ---- what any page has to be

CONTROLS = 'a[href], button, input, select, textarea, [tabindex="0"]'

# Texts that are seen, with their colours: each its own, and the ground that it stands on.
TEXTS = """
const clear = 'rgba(0, 0, 0, 0)';
const groundOf = (node) => {
  for (let it = node; it; it = it.parentElement) {
    const colour = getComputedStyle(it).backgroundColor;
    if (colour !== clear) return colour;
  }
  return 'rgb(255, 255, 255)';
};
const found = [];
const walk = document.createTreeWalker(document.body, NodeFilter.SHOW_TEXT);
while (walk.nextNode()) {
  const node = walk.currentNode.parentElement, text = walk.currentNode.data.trim();
  const box = node.getBoundingClientRect();
  const isSeen = node.checkVisibility({ checkVisibilityCSS: true }) && box.width > 1;
  if (!text || !isSeen || node.closest('svg, script, option')) continue;
  const style = getComputedStyle(node);
  found.push([text.slice(0, 40), style.color, groundOf(node), parseFloat(style.fontSize),
    Number(style.fontWeight)]);
}
return found;
"""
BOXES = """
const shown = [...document.querySelectorAll(arguments[0])].filter((it) => it.checkVisibility());
return shown.map((it) => {
  const box = (/radio|checkbox/.test(it.type) && it.closest('label') || it).getBoundingClientRect();
  return [it.outerHTML.slice(0, 80), Math.round(box.width), Math.round(box.height)]; });
"""
# Where Tab begins: before all that the page has.
BEGIN = """
document.body.tabIndex = -1;
document.body.focus();
document.body.removeAttribute('tabindex');
"""
# What Tab comes to, as it stands in the page: of a group of radio buttons the one that is chosen,
# or else any of them.
REACHED = """
const isReached = (it) => it.checkVisibility({ checkVisibilityCSS: true }) && !it.disabled
  && it.tabIndex >= 0 && !it.closest('[inert]');
const shown = [...document.querySelectorAll(arguments[0])].filter(isReached);
const groupOf = (it) => it.type === 'radio' && it.name ? `radio ${it.name}` : null;
const groups = shown.map((it, nth) => groupOf(it) ?? nth);
"""
FOCUS = REACHED + """
const it = document.activeElement;
if (it === document.body) return null;
const style = (node) => getComputedStyle(node);
const isRinged = (node) => node && style(node).outlineStyle !== 'none'
  && parseFloat(style(node).outlineWidth) >= 2;
const box = it.getBoundingClientRect();
return [it.outerHTML.slice(0, 80), isRinged(it) || isRinged(it.closest('label')),
  box.bottom > 0 && box.top < innerHeight, groups.indexOf(groupOf(it) ?? shown.indexOf(it))];
"""
EACH = REACHED + """
return shown.map((it, nth) => [groups.indexOf(groups[nth]), it.outerHTML.slice(0, 80)]);
"""


def light(colour):
    """The relative luminance of a colour, as the accessibility guidelines of the web reckon it."""
    parts = [float(it) / 255 for it in colour[colour.index('(') + 1:-1].split(',')[:3]]
    red, green, blue = (it / 12.92 if it <= 0.04045 else ((it + 0.055) / 1.055) ** 2.4
                        for it in parts)
    return 0.2126 * red + 0.7152 * green + 0.0722 * blue


def contrast(*colours):
    low, high = sorted(map(light, colours))
    return (high + 0.05) / (low + 0.05)


def weak_texts(browser):
    """The texts whose contrast is below that of WCAG AA: 4.5, or 3 for large ones."""
    def least(size, weight):
        return 3 if size >= 24 or (size >= 18.66 and weight >= 700) else 4.5
    return [it for it in browser.run(TEXTS) if contrast(*it[1:3]) < least(*it[3:])]


def spoken(browser):
    """What those hear who hear the page, each node by its number."""
    nodes = browser.devtools('Accessibility.getFullAXTree')['nodes']
    return {it['nodeId']: it for it in nodes if not it['ignored']}, {
        it['nodeId']: it.get('parentId') for it in nodes}


def name_of(node):
    return node.get('name', {}).get('value', '').strip()


def nameless(browser):
    """What can have the focus and has no name for those who hear the page, by its role."""
    def is_focusable(it):
        return any(one['name'] == 'focusable' and one['value']['value']
                   for one in it.get('properties', []))

    found = [it for it in spoken(browser)[0].values() if is_focusable(it)]
    return [it['role']['value'] for it in found if not name_of(it)]


# Within these a name has to be of one button only: parts of a page, and lines of a list.
REGIONS = {'RootWebArea', 'alert', 'article', 'banner', 'complementary', 'contentinfo', 'dialog',
           'form', 'group', 'listitem', 'main', 'navigation', 'radiogroup', 'region', 'row',
           'search', 'status'}


def repeated(browser):
    """Buttons and links that have the name of another in the same region of the page."""
    nodes, parents = spoken(browser)

    def region_of(number):
        while number in parents:
            number = parents[number]
            if number in nodes and nodes[number]['role']['value'] in REGIONS:
                return number
        return None

    found = collections.Counter((region_of(number), it['role']['value'], name_of(it))
                                for number, it in nodes.items()
                                if it['role']['value'] in ('button', 'link'))
    return [f'{role} {name!r}' for (_, role, name), count in found.items() if count > 1]


def small_targets(browser):
    return [it for it in browser.run(BOXES, CONTROLS) if min(it[1:]) < TARGET - 0.5]


def unseen_focus(browser, most=60):
    """Goes through the page by Tab; gives what has the focus unseen, or does not show it, what it
    comes to after what stands below it, and what it does not come to."""
    found, places = [], []
    browser.run(BEGIN)
    for _ in range(most):
        browser.press('Tab')
        at = browser.run(FOCUS, CONTROLS)
        if at is None or at[3] in places:
            break
        if not all(at[1:3]):
            found.append(at)
        if places and at[3] < max(places):
            found.append(f'after what stands below it: {at[0]}')
        places.append(at[3])
    if len(places) < most:
        found += [f'never: {html}' for place, html in browser.run(EACH, CONTROLS)
                  if place not in places]
    return found if places else ['nothing has the focus']


def faults(browser):
    """What is wrong with the page for someone, in words; nothing where all is well."""
    head = browser.run("return [document.documentElement.lang, document.title, "
                       "document.querySelectorAll('h1').length, "
                       "document.querySelectorAll('main').length]")
    wrong = [] if all(head) and head[2:] == [1, 1] else [f'head: {head}']
    for words, found in [('contrast', weak_texts(browser)), ('no name', nameless(browser)),
                         ('one name', repeated(browser)),
                         ('small', small_targets(browser)), ('focus', unseen_focus(browser))]:
        wrong += [f'{words}: {it}' for it in found]
    return wrong


def faults_everywhere(browser):
    """The faults in light and dark, in a wide window and on a phone."""
    wrong = []
    for scheme in ('light', 'dark'):
        browser.devtools('Emulation.setEmulatedMedia',
                         features=[{'name': 'prefers-color-scheme', 'value': scheme}])
        for size in [(1280, 720), PHONE]:
            browser.size(*size)
            wide = browser.run('return document.documentElement.scrollWidth')
            here = [f'wider than the window: {wide}'] if wide > size[0] else []
            wrong += [f'{scheme} {size}: {it}' for it in here + faults(browser)]
    browser.devtools('Emulation.setEmulatedMedia', features=[])
    browser.size(1280, 720)
    return wrong
