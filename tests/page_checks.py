"""What is asked of a page that plays a run, in a browser: each question is a function that says what is wrong, or None.

A question gets the browser, and the run that is played: its `rows`, its `last` round, and what the page is given.
"""

import re
from collections import Counter

# The links of the ring that lock one another up, and where they lead.
RING_LINKS = {'A.1': 'B.2', 'B.1': 'C.2', 'C.1': 'D.2', 'D.1': 'A.2'}
ROUND = "+document.getElementById('round').value"
# All that is drawn and told: each element with its place, its text and its look.
SHOWN = """JSON.stringify([...document.querySelectorAll('figure *, aside *, output')]
  .filter(it => !it.closest('[hidden]') && getComputedStyle(it).display !== 'none').map(it => {
    const { stroke, strokeWidth, strokeDasharray, fill, opacity } = getComputedStyle(it)
    return [it.tagName, ...['d', 'cx', 'cy', 'x', 'y', 'transform'].map(name => it.getAttribute(name)),
      it.children.length ? '' : it.textContent, stroke, strokeWidth, strokeDasharray, fill, opacity] }).sort())"""
COUNT = """(() => { const found = []
  for (let number = 0; number <= data.last; number++) {
    go(number)
    found.push([...document.querySelectorAll('.token')].filter(it => it.closest('figure') && getComputedStyle(it).display !== 'none').length)
  }
  return found })()"""
# Pairs of what overlaps: gauges with their numbers, numbers of links, names of packets and of nodes, in each round.
OVERLAPS = """(() => { const found = new Set()
  const boxes = () => [...document.querySelectorAll('figure :is(.gauge, .link, .name, .node text)')]
    .filter(it => getComputedStyle(it).display !== 'none' && it.textContent.trim()).map(it => [it, it.getBoundingClientRect()])
  for (let number = 0; number <= data.last; number++) {
    go(number)
    const all = boxes()
    for (const [i, [it, a]] of all.entries()) for (const [other, b] of all.slice(i + 1))
      if (it.parentNode !== other.parentNode || !it.closest('.node'))
        if (a.left < b.right - 1 && b.left < a.right - 1 && a.top < b.bottom - 1 && b.top < a.bottom - 1)
          found.add(`${it.getAttribute('class') ?? 'node'} ${it.textContent} and ${other.getAttribute('class') ?? 'node'} ${other.textContent}, round ${number}`)
  }
  go(0)
  return [...found].slice(0, 6) })()"""
WANTED = """(() => { const found = []
  for (let number = 0; number <= data.last; number++) {
    go(number)
    const drawn = [...document.querySelectorAll('.wanting')].filter(it => getComputedStyle(it).display !== 'none')
    found.push(drawn.map(it => it.querySelector('title').textContent).sort())
  }
  return found })()"""
QUEUES = """(() => { const found = []
  for (let number = 0; number <= data.last; number++) {
    go(number)
    found.push(Object.fromEntries(data.terminals.map(name => [name,
      [...nodes.get(name).querySelectorAll('text')].at(-1).textContent.trim()])))
  }
  return found })()"""


def by_round(rows, last):
    """A value for each round, of the rounds from which it is another one."""
    values = [0] * (last + 1)
    for first, value in rows:
        values[first:] = [value] * (last + 1 - first)
    return values


def wrong_urls(tab, played):
    """It loads no URL but its own file."""
    due = {'file://' + played.page, 'data:,'}
    return None if 'file://' + played.page in tab.loaded() and set(tab.loaded()) <= due else 'it loads %s' % tab.loaded()


def wrong_play(tab, played):
    """Space plays it up to its last round, from which the ring tells that it stands still, and shows what is locked."""
    tab.evaluate("at('speed').value = 30; go(0)")
    tab.press(' ')
    if not tab.wait_for("!playing && %s === data.last" % ROUND):
        return 'it does not play to its end: round %s' % tab.evaluate(ROUND)
    if played.name != 'ring':
        return None
    told = tab.evaluate("getComputedStyle(at('still')).display !== 'none' && at('still').textContent")
    red = tab.evaluate("[...ways.values()].filter(it => it.worm.classList.contains('locked')).map(it => it.port).sort()")
    return None if told and told.startswith('stands still') and red == sorted(RING_LINKS) else 'it tells %r, and locked are %s' % (told, red)


def wrong_steps(tab, _):
    """A step forward and back gives the same frame."""
    for number in tab.evaluate("[0, 1, 2, 3, Math.floor(data.last / 2), data.last - 1]"):
        tab.evaluate('go(%d)' % number)
        before = tab.evaluate(SHOWN)
        tab.press('ArrowRight')
        between = tab.evaluate(SHOWN)
        tab.press('ArrowLeft')
        if between == before or tab.evaluate(SHOWN) != before:
            return 'round %d looks otherwise after a step' % number
    return None


def wrong_keys(tab, played):
    """Keys lead to rounds, and Tab and Enter pick a packet; buttons and the slider do the same."""
    last = played.last
    asked = [('End', last), ('ArrowRight', last), ('ArrowLeft', last - 1), ('Home', 0), ('ArrowLeft', 0), ('PageDown', 10),
             ('ArrowRight', 11), ('PageUp', 1)]
    found = []
    for key, _ in asked:
        tab.press(key)
        found.append((key, tab.evaluate(ROUND)))
    for id_, due in (('last', last), ('back', last - 1), ('first', 0), ('step', 1)):
        tab.evaluate("at('%s').click()" % id_)
        asked.append((id_, due))
        found.append((id_, tab.evaluate(ROUND)))
    tab.evaluate("at('round').focus(); at('round').value = 3; at('round').dispatchEvent(new Event('input'))")
    tab.press('ArrowRight')
    asked.append(('slider', 4))
    found.append(('slider', tab.evaluate('round')))
    tab.evaluate('document.activeElement.blur()')
    return None if found == asked else 'wanted %s, found %s' % (asked, found)


def wrong_pick(tab, _):
    """A packet that is picked with Tab and Enter stands out, and no other, until Escape."""
    tab.evaluate("go(4); at('size').focus()")
    for _ in range(40):
        tab.press('Tab')
        if tab.evaluate("document.activeElement.closest('#packets') !== null"):
            break
    tab.press('Enter')
    name = tab.evaluate('picked')
    found = tab.evaluate("""[...ways.values()].filter(it => it.shown).every(it =>
        (getComputedStyle(it.group).opacity === '1') === (it.shown.packet.name === picked))""")
    if not name or not found or not tab.wait_for("location.hash === '#round=4&packet=' + encodeURIComponent(picked)"):
        return 'picked is %r, at %r, and others stand out: %s' % (name, tab.evaluate('location.hash'), not found)
    tab.press('Escape')
    return None if tab.evaluate('picked === null && !document.querySelector(".picked")') else 'it is picked still'


def wrong_shades(tab, _):
    """It is dark where the reader wants that, and light else, and patterns tell packets apart in both."""
    colors = []
    for shade in ('light', 'dark'):
        tab.shade(shade)
        colors.append(tab.evaluate("[getComputedStyle(document.body).backgroundColor, getComputedStyle(document.body).color]"))
    tab.shade('light')
    light, dark = ([sum(map(int, re.findall(r'\d+', it)[:3])) for it in pair] for pair in colors)
    patterns = tab.evaluate("[...packets.values()].map(it => it.name[0] + it.pattern)")
    if len(set(patterns)) < min(len(patterns), 4):
        return 'patterns: %s' % patterns
    return None if light[0] > light[1] and dark[0] < dark[1] else 'colors: %s' % colors


def wrong_motion(tab, _):
    """Tokens don't glide for a reader who wants less motion."""
    tab.shade('light', 'reduce')
    found = tab.evaluate("go(3), place(.1), part")
    tab.shade('light')
    return None if found == 0.5 and tab.evaluate("place(.1), part") == 0.1 else 'a token is at %s' % found


def wrong_tokens(tab, played):
    due = [played.moving(number) for number in range(played.last + 1)]
    found = tab.evaluate(COUNT)
    return None if found == due else 'tokens drawn: %s, and the rows have %s' % (found, due)


def wrong_overlaps(tab, _):
    """Nothing that is written at wires and in nodes lies over another."""
    found = tab.evaluate(OVERLAPS)
    return '; '.join(found) or None


def wrong_wanted(tab, played):
    """What inputs want is drawn in each round in which the network as it stands has it."""
    data, due = played.data(), []
    wants = {want: by_round(rows, played.last) for want, rows in data['wants'].items()}
    for number in range(played.last + 1):
        named = [want.split('/') for want, values in wants.items() if values[number]]
        due.append(sorted('%s: %s wants %s' % tuple(it) for it in named))
    found = tab.evaluate(WANTED)
    if not any(due) or all(due):
        return 'nothing is wanted, or always'
    return None if found == due else 'wanted %s, found %s' % (due, found)


def wrong_queues(tab, played):
    """Terminals show what waits in them, or else how many packets arrived."""
    data, due = played.data(), []
    for number in range(played.last + 1):
        came = Counter(it['receiver'] for it in data['packets'] if it['arrived'] is not None and it['arrived'] <= number)
        waits = {name: by_round(data['waits'].get(name, []), played.last)[number] for name in data['terminals']}
        due.append({name: '%d wait' % count if count else '%d arrived' % came[name] if came[name] else '' for name, count in waits.items()})
    found = tab.evaluate(QUEUES)
    return None if found == due else 'wanted %s, found %s' % (due, found)


def wrong_console(tab, _):
    return '; '.join(tab.errors()) or None


# What is looked at for each run, in this order: an error of any is in the console in the end.
ASKED = {'loads nothing else': wrong_urls, 'plays': wrong_play, 'steps forward and back': wrong_steps, 'keys': wrong_keys,
         'picks a packet': wrong_pick, 'light and dark': wrong_shades, 'less motion': wrong_motion, 'tokens': wrong_tokens,
         'overlaps': wrong_overlaps, 'what is wanted': wrong_wanted, 'what waits in terminals': wrong_queues,
         'no error in the console': wrong_console}
