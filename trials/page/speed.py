"""Tries how fast a change of a mask shows with as many entries and modules as there can be, and how soon a denial is seen."""

import json
import os
import time

from browser import BUSY
from served import seconds_of
from tabs import bit, choose, opened

ENTRIES, MODULES, MOST, MOST_OPENING = 1000, 64, 100.0, 2000.0  # milliseconds
MOST_WORK = 50.0  # milliseconds of the page's thread for a change, where all processors are taken
BITS = [0, 1, 2, 3, 5, 8, 13, 21, 30, 31]
CLICKS, KEYS = 30, 10
WATCH = """(() => { window.changes = []; window.frames = {}; window.shown = [];
    document.querySelector('#bits').addEventListener('click', (event) => { if (!event.target.matches('input')) return;
        window.changes.push(event.timeStamp); requestAnimationFrame(() => window.shown.push(LOOKS)); }, true);
    new PerformanceObserver((list) => list.getEntries().forEach(it => {
        window.frames[it.startTime] = Math.max(window.frames[it.startTime] || 0, it.duration); }))
        .observe({ type: 'event', durationThreshold: 16 }); })()"""
OPENED = "document.querySelector('#share-note').innerText.includes('64 commands')"
LOOKS = """[...document.querySelectorAll('#table tbody tr')].map(row =>
    [Number(row.querySelector('.number').textContent), row.querySelectorAll('td.cell')[40].className])"""
IN_VIEW = """(() => { const box = document.querySelector('#table-scrolls').getBoundingClientRect();
    const head = document.querySelector('#table thead').getBoundingClientRect();
    const rows = [...document.querySelectorAll('#table tbody tr')].map(it => it.getBoundingClientRect())
        .filter(it => it.bottom > head.bottom && it.top < box.bottom).sort((one, other) => one.top - other.top);
    return rows.length > 0 && rows[0].top <= head.bottom + 1 && rows.at(-1).bottom >= box.bottom - 2
        && rows.every((it, at) => at === 0 || it.top <= rows[at - 1].bottom + 2); })()"""
SETTLED = "new Promise(done => requestAnimationFrame(() => requestAnimationFrame(() => setTimeout(done, 300))))"
PLACED = """[...document.querySelectorAll('#table tbody tr')].every(it =>
    Number(it.ariaRowIndex) === Number(it.querySelector('.number').textContent) + 2)"""
SCROLL = "(() => { const it = document.querySelector('#table-scrolls'), before = it.scrollTop; it.scrollTop += it.clientHeight / 2; return it.scrollTop > before; })()"


def masks():
    """A mask for each entry: one to three bits, each bit in many entries."""
    return [(1 << number % 32) | (1 << number * 7 % 32) | (1 << number * 13 // 5 % 32) for number in range(ENTRIES)]


def many():
    lines = [line for number, mask in enumerate(masks()) for line in (f"mask {mask:08x}", f"function 0 1 int64 entry_{number}(int64, int64)")]
    session = [f"module m{number} {1 << number % 32:08x}" for number in range(MODULES)]
    return "".join(f"{it}\n" for it in lines), "".join(f"{it}\n" for it in session)


def try_speed(trial):
    with trial.served() as served:
        tab = opened(trial, served)
        profile, session = many()
        for selector, text in (("#share-profile", profile), ("#share-session", session)):
            tab.value(f"document.querySelector('{selector}').value = {json.dumps(text)}")
        try_opening(trial, served, tab)
        choose(tab, "m40")
        seen = "(() => { const it = document.querySelector('.of-module.chosen').getBoundingClientRect(); return it.right <= innerWidth && it.left > 0; })()"
        trial.that("the chosen module's column is in view", tab.value(seen))
        tab.value(WATCH.replace("LOOKS", LOOKS))
        mask = try_changes(trial, tab, 1 << 8)
        trial.picture(tab, "many", whole=False)
        try_reading(trial, tab)
        try_rows(trial, tab, mask)
        trial.same("the console was told no error", tab.complaints(), [])
        tab.close()


def try_opening(trial, served, tab):
    """Opens it. Where more programs run than there are processors, the time of page, server and engine counts alone."""
    tab.do("Performance.enable", timeDomain="threadTicks")
    before, of_page, of_server = served.engines(), worked_so_far(tab), seconds_of(served.process.pid)
    began = time.monotonic()
    tab.click("#load")
    shown = tab.wait(f"{OPENED} && document.querySelector('#registrations-sum').innerText === '1,000 entries, {MODULES} modules'", 60 * BUSY)
    took = (time.monotonic() - began) * 1000
    trial.that("1,000 entries and 64 modules are shown", shown, tab.text("#registrations-sum"))
    of_page, of_server = worked_so_far(tab) - of_page, (seconds_of(served.process.pid) - of_server) * 1000
    of_engine = sum(seconds_of(it) for it in served.engines() if it not in before) * 1000
    print(f"opened in {took:.0f} ms; work for it: {of_page:.0f} ms in the page, {of_server:.0f} in the server, {of_engine:.0f} in the engine")
    trial.that(f"opening takes {MOST_OPENING:.0f} ms of work at most", of_page + of_server + of_engine <= MOST_OPENING)
    if os.getloadavg()[0] < (os.cpu_count() or 1):
        trial.that(f"opening takes {MOST_OPENING:.0f} ms at most", took <= MOST_OPENING, took)


def looks(numbers, mask):
    """How the rows of some entries look in the column of a module that is not built and has a mask."""
    return [[it, "cell seen" if masks()[it] & mask else "cell hidden"] for it in numbers]


def try_changes(trial, tab, mask):
    """Flips bits of the module m40, by clicks and then by the space bar: the next frame has the table as it has to be. Where
    more programs run than there are processors, the time of the page's own thread counts alone. Gives the mask."""
    idle = sorted(idle_work(tab) for _ in range(5))[2]
    print(f"a click on nothing takes {idle:.0f} ms of the page's thread, which are in what it works for a change too")
    for what, count, do in (("click", CLICKS, tab.click), ("key", KEYS, lambda selector: press(tab, selector))):
        frames, work = [], []
        for number in (BITS * CLICKS)[:count]:
            mask ^= 1 << number
            took, worked, shown = change_times(tab, number, do)
            trial.same(f"what the next frame shows of m40 under {mask:08x}", shown, looks([it[0] for it in shown], mask))
            trial.that("with the rows in view", len(shown) > 12 and tab.value(IN_VIEW), len(shown))
            frames.append(took)
            work.append(worked)
        judge(trial, what, frames, work)
    return mask


def judge(trial, what, frames, work):
    """Prints and compares the times of changes."""
    waiting, frames, work = os.getloadavg()[0], sorted(frames), sorted(work)
    within = sum(it <= MOST for it in frames)
    print(f"from a {what} on a bit to the next frame, {len(frames)} times: {frames[0]:.0f} ms at least, {frames[len(frames) // 2]:.0f} in the middle, "
          f"{frames[-1]:.0f} at most, {within} within {MOST:.0f}; the page's thread worked {work[0]:.0f} to {work[-1]:.0f} ms, {work[len(work) // 2]:.0f} in the "
          f"middle; {waiting:.1f} programs on {os.cpu_count()} processors")
    trial.that(f"a change takes {MOST_WORK:.0f} ms of work in the middle", work[len(work) // 2] <= MOST_WORK, work)
    if waiting < os.cpu_count():
        trial.that(f"each {what} shows within {MOST:.0f} ms", within == len(frames), frames)
    else:
        print("frames are not judged: the machine is too busy")


def press(tab, selector):
    """Presses the space bar on an element."""
    tab.value(f"document.querySelector({json.dumps(selector)}).focus()")
    tab.press("Space")


def change_times(tab, number, do):
    """The milliseconds from an event on a bit to the frame that shows what it changed, of which those below 16 are told as 16;
    those that the page's thread worked for it, up to the engine's answer and what is drawn then; and what that frame shows."""
    tab.middle(bit(number))
    worked, before = worked_so_far(tab), tab.value("window.changes.length")
    do(bit(number))
    tab.wait(f"window.changes.length === {before + 1}")
    tab.value(SETTLED)
    return tab.value("window.frames[window.changes.at(-1)] || 16"), worked_so_far(tab) - worked, tab.value("window.shown.at(-1)")


def idle_work(tab):
    """The milliseconds that the page's thread works for a click that changes nothing, its driver's questions among them."""
    tab.middle("#registrations .above")
    worked = worked_so_far(tab)
    tab.click("#registrations .above")
    tab.value(SETTLED)
    return worked_so_far(tab) - worked


def try_reading(trial, tab):
    """Rows that are there tell where they stand among all; and one whose text is selected stays, where the table is scrolled away."""
    trial.same("the table tells how many rows it has", tab.value("document.querySelector('#table').ariaRowCount"), str(ENTRIES + 1))
    trial.that("each row tells its place", tab.value(PLACED))
    trial.that("each cell is told in words", tab.value("[...document.querySelectorAll('#table td.cell')].every(it => it.ariaLabel)"))
    tab.value("getSelection().selectAllChildren(document.querySelector('#table tbody tr .told'))")
    tab.value("document.querySelector('#table-scrolls').scrollTop = 5000")
    trial.that("the table is scrolled", tab.wait(f"{IN_VIEW} && {PLACED} && document.querySelectorAll('#table tbody tr').length < 60"))
    trial.that("what is selected stays", "int64 entry_0(int64, int64)" in tab.value("getSelection().toString()"))
    tab.value("getSelection().removeAllRanges(); document.querySelector('#table-scrolls').scrollTop = 0")


def try_rows(trial, tab, mask):
    """Goes through the table: rows that come into view show what was changed before they came. Others are found by their text."""
    seen = {}
    while True:
        trial.that("the view is full of rows", tab.wait(IN_VIEW), len(seen))
        seen.update(tab.value(LOOKS))
        if not tab.value(SCROLL):
            break
    trial.same("all rows come into view, as they have to look", [[it, seen.get(it)] for it in range(ENTRIES)], looks(range(ENTRIES), mask))
    trial.picture(tab, "many-end", whole=False)
    tab.write("#find", "ENTRY_98")
    trial.same("rows that are found", tab.value(LOOKS), looks([98, *range(980, 990)], mask))
    tab.write("#find", "")
    trial.same("there is a first row again", tab.value(LOOKS)[0], looks([0], mask)[0])
    tab.value("document.querySelector('#table-scrolls').scrollTop = 0")
    trial.that("and it is in view", tab.wait(f"{IN_VIEW} && document.querySelector('#table tbody tr .number').textContent === '0'"))


def worked_so_far(tab):
    metrics = {it["name"]: it["value"] for it in tab.do("Performance.getMetrics")["metrics"]}
    return metrics["TaskDuration"] * 1000


def try_newcomer(trial):
    """From the command to a denial that is understood, and done away with."""
    began = time.monotonic()
    with trial.served() as served:
        tab = trial.browser.tab()
        tab.size(1280, 900)
        tab.open(served.link)
        trial.that("a denial is there at once", tab.wait("document.querySelector('#problems .denial')"))
        box = tab.value(
            "(() => { const it = document.querySelector('#problems .denial').getBoundingClientRect(); return it.bottom; })()"
        )
        trial.that("it is seen without scrolling", box < 900, box)
        told = tab.text("#problems .denial")
        trial.that(
            "it tells the entry, the masks and the bit",
            all(it in told for it in ("int64 quota", "00000002", "00000001", "Bit 1 would do")),
            told,
        )
        trial.picture(tab, "newcomer", whole=False)
        tab.click("#problems .denial button")
        tab.wait("document.querySelectorAll('#problems li').length === 0")
        tab.click("#build")
        trial.that(
            "with the bit it is built",
            tab.wait("document.querySelector('#module-state').innerText === 'built under 00000003'"),
        )
        tab.click("#do-call")
        trial.that("and called", tab.wait("document.querySelector('#result .outcome.ok')"))
        tab.close()
    took = time.monotonic() - began
    print(f"from the command to a call of what was denied: {took:.1f} seconds")
    trial.that("a program does that in less than 30 seconds", took < 30 * BUSY, took)
