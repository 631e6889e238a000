"""Tries runs, what is shared, and other profiles."""

import json
import os
import signal
import subprocess
import tempfile

from served import sample
from tabs import call, choose, choose_sample, column, opened, texts, use_profile

SAMPLES = ["levels", "plugins", "game"]
SPIN = "void spin() { while (true) {} }\nvoid short() { for (int i = 0; i < 3; i++) {} }\nint back(int n, bool up) { return up ? n : -n; }\n"
ROWS = """[...document.querySelectorAll('#timeline .run[open] tbody tr')].map(row => [
    [...row.querySelectorAll('td.lane')].map(lane => lane.className.replace('lane ', '')).join(' '),
    row.children[row.children.length - 2].lastChild.textContent, row.children[row.children.length - 1].innerText])"""


STACK = """[...document.querySelectorAll('#result .stack li')].map(it =>
    [it.querySelector('b').innerText, it.querySelector('.name code').innerText, Number(it.querySelector('button').innerText.split(':')[1])])"""
LIT_LINE = """(() => { for (const it of document.querySelectorAll('.section')) { const lit = it.querySelector('.lit');
    if (lit.hidden) continue; const area = it.querySelector('textarea'), style = getComputedStyle(area);
    const top = lit.getBoundingClientRect().top - area.getBoundingClientRect().top + area.scrollTop - parseFloat(style.paddingTop);
    return area.value.split('\\n')[Math.round(top / parseFloat(style.lineHeight))]; } return ''; })()"""
IN_VIEW = "(() => { const it = document.querySelector('.lit:not([hidden])').getBoundingClientRect(); return it.top > 0 && it.bottom < innerHeight; })()"
OFFERED = "[...document.querySelectorAll('#function option')].map(it => [it.text.replace(' (for scripts alone)', ''), !it.disabled])"
PLUGINS_STACK = [["editor", "note"], ["counter", "wrong"]]
LINES_OF_NAMES = ["int64 note(int64 what) {", "int64 wrong() {"]
LINES_OF_STATEMENTS = ["        stop(7);", "    return note(-1);"]
INITIALIZER = "int by(int n) {\n    return 10 / n;\n}\n\nint first = by(0);\n"
KEEPS = "int count;\nint next() { count++; return count; }\nint div(int n) { return 1 / n; }\nvoid gives(int &out n) { n = 1; }\n"


def try_runs(trial):
    with trial.served("--timeout", "2") as served:
        tab = opened(trial, served)
        choose(tab, "staff")
        trial.same("a call gives its value", call(tab, "grant", "2"), "ok 42")
        wanted = [
            ["from to", "quota", "40"], ["from to", "sum(40,2)", "42"], ["from to", "quota = 42", "void"],
            ["from to", "quota", "42"], ["from to", "print(42)", "void"], ["from to", "quota", "42"],
        ]
        trial.same("its host calls are listed in order", tab.value(ROWS), wanted)
        trial.that("its ticks are told", tab.text("#ticks").startswith("2 ticks of 1,000,000"), tab.text("#ticks"))
        call(tab, "grant", "many")
        trial.that("what is no value is told", "'many' is no value" in tab.text("#result"), tab.text("#result"))
        try_bounds(trial, tab)
        tab.close()
        try_objects(trial, served)


def try_bounds(trial, tab):
    """Scripts that run on, up to the budget and up to the timeout."""
    choose(tab, "guest")
    tab.write("#section-0", SPIN)
    tab.click("#build")
    tab.wait("document.querySelector('#module-state').innerText.startsWith('built')")
    trial.same("values go in", call(tab, "back", "7", "false"), "ok -7")
    call(tab, "short")
    trial.that("the ticks of a loop", tab.text("#ticks").startswith("5 ticks of"), tab.text("#ticks"))
    trial.same("a loop without an end", call(tab, "spin"), "fault Budget")
    found = tab.text("#ticks")
    trial.that("took all its ticks", found.startswith("1,000,000 ticks of 1,000,000"), found)
    trial.same("and its line is lit", lit(tab), "void spin() { while (true) {} }")
    tab.write("#budget", "2147483647")
    tab.click("#budget-form button")
    late = call(tab, "spin")
    said = tab.text("#result")
    trial.that(
        "what runs longer than the timeout is ended, and that is said",
        "longer than the timeout" in said and "another one" in said,
        (late, said),
    )
    trial.same("the modules are there again", call(tab, "back", "8", "true"), "ok 8")
    tab.click("#write")
    trial.that(
        "the session goes on",
        tab.wait("document.querySelector('#share-session').value.endsWith('call guest (8,true) int back(int n, bool up)\\n')"),
    )
    told = tab.value("document.querySelector('#share-session').value").count("void spin()\n")
    trial.same("it has no call that did not end", told, 1)


def stack(tab):
    """The stack that is shown of the last run: modules, functions, and lines. An engine may tell the places of names alone."""
    return tab.value(STACK)


def lit(tab):
    """The text of the line that is lit in an editor, or nothing."""
    return tab.value(LIT_LINE)


def is_declared(tab):
    """Whether the engine tells the places of functions' names alone, and not those of statements. Of globals it always does."""
    return "declared there" in tab.text("#result .stack li:first-child")


def try_traces(trial):
    """The stack of a fault in a call, and in an initializer; its lines are come to, and are lit."""
    with trial.served("--timeout", "5") as served:
        tab = opened(trial, served, "plugins")
        trial.same("a fault of what was opened has its stack", [it[:2] for it in stack(tab)], PLUGINS_STACK)
        choose(tab, "counter")
        trial.same("a fault two calls deep through an import", call(tab, "wrong"), "fault Host 7")
        trial.same("has the stack of both modules", [it[:2] for it in stack(tab)], PLUGINS_STACK)
        inner, outer = LINES_OF_NAMES if is_declared(tab) else LINES_OF_STATEMENTS
        trial.same("no line of this module is lit before one is chosen", lit(tab), "")
        tab.click("#result .stack li:first-child button")
        trial.same("a click leads to the module", tab.text("#module-name"), "editor")
        trial.same("whose line is lit", lit(tab), inner)
        trial.that("and in view", tab.value(IN_VIEW), tab.value(IN_VIEW))
        trial.picture(tab, "stack")
        tab.value("document.querySelector('#result .stack li:last-child button').focus()")
        tab.press("Enter")
        trial.same("Enter leads to the other one", tab.text("#module-name"), "counter")
        trial.same("whose line is lit then", lit(tab), outer)
        tab.write("#section-0", "// one more line\n" + tab.value("document.querySelector('#section-0').value"))
        trial.same("a line that moved stays lit", lit(tab), outer)
        tab.write("#section-0", "int64 other() { return 1; }")
        trial.same("one that is gone does not", lit(tab), "")
        tab.click("#result .stack li:last-child button")
        trial.that("which is said", "has been edited" in tab.text("#message"), tab.text("#message"))
        tab.close()
        try_initializer(trial, served)


def try_initializer(trial, served):
    tab = opened(trial, served)
    choose(tab, "guest")
    tab.write("#section-0", INITIALIZER)
    tab.click("#build")
    trial.that("a fault of an initializer", tab.wait("document.querySelector('#result').innerText.includes('InitFailed DivideByZero')"), tab.text("#result"))
    lines = [["guest", "by"], ["guest", "global first"]]
    trial.same("has a stack", [it[:2] for it in stack(tab)], lines)
    trial.that("where that is is told beside the editor", "at Runs" in tab.text("#problems"), tab.text("#problems"))
    trial.same("the line of the innermost function is lit", lit(tab), "int by(int n) {" if is_declared(tab) else "    return 10 / n;")
    tab.click("#result .stack li:last-child button")
    trial.same("that of the initializer is come to", lit(tab), "int first = by(0);")
    trial.picture(tab, "initializer")
    profile, session, lines = texts(tab)
    trial.same("asrun prints of it what the page shows", lines_of_asrun(trial, profile, session), lines)
    tab.click("#copy-link")
    tab.wait("document.querySelector('#link').value !== ''")
    link = tab.value("document.querySelector('#link').value")
    shown = stack(tab)
    tab.close()
    tab = trial.browser.tab()
    tab.open(link)
    trial.same("a link has the stack", stack(tab), shown)
    trial.same("and the same texts", texts(tab), [profile, session, lines])
    try_killed(trial, served, tab)
    tab.close()


def try_killed(trial, served, tab):
    """An engine that is killed: another one does all again."""
    choose(tab, "guest")
    tab.write("#section-0", KEEPS)
    tab.click("#build")
    tab.wait("document.querySelector('#module-state').innerText.startsWith('built')")
    trial.same("a call counts", [call(tab, "next"), call(tab, "next")], ["ok 1", "ok 2"])
    trial.same("functions of handles and references are not offered", tab.value(OFFERED), [["int next()", True], ["int div(int n)", True], ["void gives(int &out n)", False]])
    for engine in served.engines():
        os.kill(engine, signal.SIGKILL)
    tab.click("#check")
    trial.that("a check that ends with its engine is told", tab.wait("document.querySelector('#problems').innerText.includes('another one')"), tab.text("#problems"))
    trial.same("what was counted is there again", call(tab, "next"), "ok 3")
    trial.same("a fault", call(tab, "div", "0"), "fault DivideByZero")
    trial.same("has its stack", [it[:2] for it in stack(tab)], [["guest", "div"]])
    tab.write("#section-0", "int wrong( { }")
    trial.that("a check with errors", tab.wait("document.querySelectorAll('#problems li.wrong').length === 1"), tab.text("#problems"))
    tab.write("#section-0", "void grab() { quota = 1; }")
    trial.that("a check with a denial", tab.wait("document.querySelectorAll('#problems li.denied').length === 1"), tab.text("#problems"))
    tab.write("#section-0", "int fine() { return 1; }")
    trial.that("a check without", tab.wait("document.querySelector('#problems').innerText.startsWith('None: it can be built')"), tab.text("#problems"))
    trial.same("meanwhile the program runs on", call(tab, "next"), "ok 4")
    tab.click("#build")
    tab.wait("document.querySelector('#module-state').innerText === 'built under 00000001'")
    trial.same("what was checked does not wait", call(tab, "fine"), "ok 1")
    profile, session, lines = texts(tab)
    trial.same("asrun prints of all this what the page shows", lines_of_asrun(trial, profile, session), lines)
    trial.same("the console was told no error", tab.complaints(), [])


def try_objects(trial, served):
    tab = opened(trial, served, "plugins")
    choose(tab, "counter")
    rows = "[...document.querySelectorAll('#objects tbody tr')].map(it => it.innerText.split('\\t'))"
    trial.same("the object that is alive", tab.value(rows), [["Document#0", "editor", "1"]])
    trial.same("a fault of the host's", call(tab, "wrong"), "fault Host 7")
    trial.same("its event is the last", tab.value(ROWS)[-1], ["from to", "stop(7)", "fault 7"])
    lit = "document.querySelector('#timeline .run[open] td.fault').innerText"
    trial.same("which is lit", tab.value(lit), "fault 7")
    trial.same("its stack goes through the import", [it[:2] for it in stack(tab)], PLUGINS_STACK)
    call(tab, "count")
    trial.same("its host calls are counted", tab.value(rows), [["Document#0", "editor", "2"]])
    heads = tab.value("[...document.querySelectorAll('#timeline .run[open] th.lane')].map(it => it.innerText)")
    trial.same("lanes of modules and drivers", heads, ["counter", "editor", "driver 0", "driver 2, Document"])
    trial.same(
        "a lane is crossed",
        tab.value(ROWS)[0],
        ["from between between to".replace("between to", "between to"), "Document#0.length()", "120"],
    )
    trial.picture(tab, "runs")
    choose(tab, "editor")
    tab.click("#discard")
    trial.that("objects end with their module", tab.wait("document.querySelectorAll('#objects tbody tr').length === 0"))
    end = ["end", "Document#0 ends", ""]
    trial.that(
        "which is an event",
        tab.wait(f"JSON.stringify({ROWS}) === {json.dumps(json.dumps([end], separators=(',', ':')))}"),
        tab.value(ROWS),
    )
    tab.close()


def lines_of_asrun(trial, profile, session):
    """What asrun prints of these texts."""
    with tempfile.TemporaryDirectory() as folder:
        paths = [os.path.join(folder, name) for name in ("profile", "session")]
        for path, text in zip(paths, (profile, session)):
            with open(path, "w", encoding="utf-8", newline="") as file:
                file.write(text)
        done = subprocess.run(
            [trial.asrun, "--profile", paths[0], "--session", paths[1]], capture_output=True, text=True, check=False
        )
        return done.stdout


def try_share(trial):
    with trial.served() as served:
        for name in SAMPLES:
            tab = opened(trial, served, name)
            profile, session, lines = texts(tab)
            trial.same(f"asrun prints of {name} what the page shows", lines_of_asrun(trial, profile, session), lines)
            trial.that(f"{name} has a denial", "\ndenied " in lines and tab.text("#problems .denial") != "")
            trial.same(
                f"asrun prints of the files of {name} the same",
                lines_of_asrun(trial, sample(f"{name}.profile"), sample(f"{name}.session")),
                lines,
            )
            tab.close()
        try_worked(trial, served)


def try_worked(trial, served):
    """What a person does, as a session and as a link."""
    tab = opened(trial, served, "game")
    choose(tab, "quest")
    call(tab, "feed", "2")
    choose(tab, "player")
    tab.click("#problems .denial button")
    tab.click("#build")
    choose(tab, "rules")
    call(tab, "crowd")
    tab.write("#section-0", "// only edited: \u00e9 </textarea>\nvoid f() { int x = 1; }")
    profile, session, lines = texts(tab)
    trial.same("asrun prints of what was done what the page shows", lines_of_asrun(trial, profile, session), lines)
    shown = tab.value("[...document.querySelectorAll('#timeline .run')].length")
    trial.same(
        "the page shows each command that ran",
        shown,
        sum(it.startswith(("call ", "build rules")) for it in session.split("\n")),
    )
    trial.that("what was edited is kept in comments", "#draft rules 2\n#|// only edited: \u00e9 </textarea>\n" in session)
    tab.click("#copy-link")
    tab.wait("document.querySelector('#link').value !== ''")
    link = tab.value("document.querySelector('#link').value")
    trial.picture(tab, "share")
    looks = {name: column(tab, name) for name in ("rules", "quest", "player")}
    tab.close()
    try_link(trial, served, link, (profile, session, lines), looks)


def try_link(trial, served, link, wanted, looks):
    tab = trial.browser.tab()
    tab.open(link)
    trial.same("a link gives the same texts", texts(tab), list(wanted))
    trial.same("and the same table", {name: column(tab, name) for name in looks}, looks)
    choose(tab, "rules")
    found = tab.value("document.querySelector('#section-0').value")
    trial.same("and what was edited", found, "// only edited: \u00e9 </textarea>\nvoid f() { int x = 1; }\n")
    choose_sample(trial, tab, "plugins")
    tab.write("#link", link)
    tab.click("#link-form button")
    trial.that("it is loaded by pasting it", tab.wait("document.querySelector('#registrations-sum').innerText.startsWith('12 ')"))
    tab.write("#link", link[:-9] + "AAAAAAAAA")
    tab.click("#link-form button")
    trial.that("a broken link is told", tab.wait("document.querySelector('#message').innerText.includes('link')"))
    tab.write("#share-session", "module a 00000001\nmodul b 00000001\n")
    tab.click("#load")
    trial.that(
        "a broken session is told with its line",
        tab.wait("document.querySelector('#message').innerText.startsWith('line 2 of the session')"),
        tab.text("#message"),
    )
    tab.write("#share-session", "#answers otherwise\nmodule a 00000001\n")
    tab.click("#load")
    trial.that(
        "an unknown kind of answers is told",
        tab.wait("document.querySelector('#message').innerText.includes('not as otherwise')"),
        tab.text("#message"),
    )
    tab.write("#share-session", "module a 00000001\n")
    tab.click("#load")
    trial.that(
        "a session is loaded",
        tab.wait("document.querySelector('#registrations-sum').innerText === '12 entries, 1 module'"),
        tab.text("#registrations-sum"),
    )
    tab.click("#anew")
    trial.that(
        "it is begun anew", tab.wait("document.querySelector('#share-session').value.startsWith('budget 1000000\\nmodule a')")
    )
    tab.close()


OTHER = "mask 00000010\ntype Ship 7\nfactory Ship 9 Ship@ build(int)\nmethod Ship 3 uint fuel() const\nfunction 5 1 bool ready()\n"


def try_profiles(trial):
    with trial.served() as served:
        tab = opened(trial, served)
        use_profile(tab, "mask 00000001\nfunction 0 0 void f(int)\nfunction 0 0 void f(int)\n")
        trial.that(
            "a refused line is told",
            tab.wait("document.querySelector('#message').innerText.startsWith('line 3 of the profile')"),
            tab.text("#message"),
        )
        trial.same("what was there stays", tab.text("#registrations-sum"), "4 entries, 2 modules")
        use_profile(tab, OTHER)
        trial.that(
            "another profile is taken",
            tab.wait("document.querySelector('#registrations-sum').innerText === '4 entries, 2 modules' && document.querySelector('#table').innerText.includes('Ship')"),
        )
        trial.same(
            "host calls of drivers that asrun lacks are answered plainly",
            tab.value("document.querySelector('#answers').value"),
            "plain",
        )
        trial.same("the modules stay, and see nothing of it", column(tab, "guest"), ["hidden"] * 4)
        tab.click("#bits input[data-bit='4']")
        trial.same("a mask shows it", column(tab, "guest"), ["seen"] * 4)
        tab.write("#section-0", "uint f() { Ship s(1); return ready() ? 1 : s.fuel(); }")
        tab.click("#build")
        tab.wait("document.querySelector('#module-state').innerText.startsWith('built')")
        trial.same("its calls are answered", call(tab, "f"), "ok 0")
        trial.same("by plain values", [it[2] for it in tab.value(ROWS)], ["made #1", "false", "0", ""])
        trial.same("the console was told no error", tab.complaints(), [])
        tab.close()
    try_files(trial)


def try_files(trial):
    """Files that are named as the server is started."""
    with tempfile.TemporaryDirectory() as folder:
        for name, text in (("own.profile", OTHER), ("own.as", "bool f() { return ready(); }\n")):
            with open(os.path.join(folder, name), "w", encoding="utf-8") as file:
                file.write(text)
        with trial.served("--profile", os.path.join(folder, "own.profile"), "--mask", "10", os.path.join(folder, "own.as")) as served:
            tab = trial.browser.tab()
            tab.open(served.link)
            trial.same("a script of one's own is built", tab.text("#module-state"), "built under 00000010")
            trial.same("and called", call(tab, "f"), "ok false")
            tab.close()
