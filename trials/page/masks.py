"""Tries registrations and modules: who sees what, what a click on a bit does, errors and denials at their places."""

import json

from tabs import HEADS, bit, choose, choose_sample, column, opened, texts, use_profile

SEEN, NEXT, STILL, HIDDEN = "seen", "next", "still", "hidden"
GAME = {"rules": [0, 1, 2, 3, 4, 5, 6, 7, 8, 9, 10], "quest": [0, 1, 2, 3, 4, 5, 6, 7], "player": [0, 1, 2, 3, 4, 5, 11]}
# a use of each entry of the game: it is built where a module sees the entry, and refused where it is hidden
USES = [
    "void f() { say(1); }", "void f(Element e) {}", "void f() { STONE; }", "void f() { FIRE; }",
    "void f(Monster@ m) {}", "void f(Monster@ m) { m.health(); }", "void f(Monster@ m) { m.heal(); }",
    "void f(Monster@ m) { m.strength; }", "void f() { Monster m(1); }", "void f() { banish(1); }", "void f() { gold; }",
    "void f() { purse; }",
]
TYPES = """mask 00000002
type Ship 1
mask 00000003
enum Color
value Color RED 1
method Ship 1 int fuel() const
factory Ship 1 Ship@ f(int)
function 1 9 Ship@+ pick(Ship@+)
function 0 0 void paint(Color)
function 0 1 void only(int Ship)
"""
OF_TYPES = {"staff": [0, 1, 2, 3, 4, 5, 6, 7], "guest": [1, 2, 6, 7]}
USES_OF_TYPES = [
    "void f(Ship@ s) {}", "void f(Color c) {}", "void f() { RED; }", "void f(Ship@ s) { s.fuel(); }", "void f() { Ship s(1); }",
    "void f(Ship@ s) { pick(s); }", "void f() { paint(RED); }", "void f() { only(1); }",
]
CHECKED = """(async () => {{ const {{ ask }} = await import('./server.js');
    const found = await ask('check', {{ name: '{module}', sections: [{text}] }}); return found.outcome; }})()"""


def try_registrations(trial):
    with trial.served() as served:
        tab = opened(trial, served)
        trial.same("levels has a column for each module", tab.value(HEADS), ["staff", "guest"])
        trial.same("what the staff sees", column(tab, "staff"), [SEEN, HIDDEN, SEEN, SEEN])
        trial.same("what a guest sees", column(tab, "guest"), [SEEN, SEEN, HIDDEN, HIDDEN])
        masks = tab.value(
            "[...document.querySelectorAll('#table tbody .mask-cell')].map(it => [it.innerText.trim(), it.querySelector('.cells').getAttribute('aria-label')])",
        )
        trial.same(
            "the masks",
            masks,
            [["00000003", "bits 0, 1"], ["00000001", "bits 0"], ["00000002", "bits 1"], ["00000002", "bits 1"]],
        )
        try_flip(trial, tab)
        try_built(trial, tab)
        try_find(trial, tab)
        trial.same("the console was told no error", tab.complaints(), [])
        tab.close()


def try_flip(trial, tab):
    """A module that is not built: a bit shows more."""
    choose(tab, "guest")
    trial.same(
        "the bits of a guest",
        tab.value("[...document.querySelectorAll('#bits input:checked')].map(it => it.dataset.bit)"),
        ["0"],
    )
    tab.click(bit(1))
    trial.same("a guest with bit 1", column(tab, "guest"), [SEEN] * 4)
    trial.same("the mask is told", tab.text("#mask-hex"), "00000003")
    appears = tab.text("#changed .appears")
    trial.that("what appears is named", "int64 quota" in appears and "int64 sum(int64, int64)" in appears, appears)
    trial.same("nothing goes", tab.text("#changed .goes"), "")
    trial.same("the staff's column stays", column(tab, "staff"), [SEEN, HIDDEN, SEEN, SEEN])
    tab.click(bit(1))
    goes = tab.text("#changed .goes")
    trial.that("what goes is named", "int64 quota" in goes and "sum" in goes, goes)
    trial.same("a guest without it", column(tab, "guest"), [SEEN, SEEN, HIDDEN, HIDDEN])


def try_built(trial, tab):
    """A built module: its program goes on to see what it saw, which is marked."""
    choose(tab, "staff")
    tab.click(bit(0))
    trial.same("the staff with bit 0 as well", column(tab, "staff"), [SEEN, NEXT, SEEN, SEEN])
    tab.click(bit(1))
    trial.same("the staff with bit 0 alone", column(tab, "staff"), [SEEN, NEXT, STILL, STILL])
    note = tab.text("#changed .still-note")
    trial.that("what the program still sees is told", "2 hidden entries" in note, note)
    trial.picture(tab, "registrations", whole=False)
    trial.same("the module's state", tab.text("#module-state"), "built under 00000002; its mask is 00000001 now")
    tab.click("#write")
    told = "document.querySelector('#share-session').value.includes('mask staff 00000003\\nmask staff 00000001\\n')"
    trial.that("the engine was told of both masks", tab.wait(told))
    tab.click("#build")
    trial.that(
        "the build is refused under that mask",
        tab.wait("document.querySelector('#problems .kind')?.innerText === 'Duplicate'"),
    )
    trial.that("and the module is not built", tab.wait("document.querySelector('#module-state').innerText === 'not built'"))
    trial.same("an unbuilt module sees by its mask alone", column(tab, "staff"), [SEEN, SEEN, HIDDEN, HIDDEN])


def try_find(trial, tab):
    tab.write("#find", "QUOTA")
    shown = "[...document.querySelectorAll('#table tbody tr')].filter(it => !it.hidden).length"
    trial.same("rows that are found", tab.value(shown), 1)
    tab.write("#find", "00000002")
    trial.same("rows that are found by their mask", tab.value(shown), 2)


def try_views(trial):
    """The cells are lit where the engine lets a script use the entry, and nowhere else."""
    with trial.served() as served:
        tab = opened(trial, served, "game")
        try_uses(trial, tab, GAME, USES)
        choose_sample(trial, tab, "levels", "game")
        use_profile(tab, TYPES)
        tab.wait("document.querySelector('#registrations-sum').innerText === '8 entries, 2 modules'")
        try_uses(trial, tab, OF_TYPES, USES_OF_TYPES)
        tab.close()


def try_uses(trial, tab, views, uses):
    for module, seen in views.items():
        found = [number for number, look in enumerate(column(tab, module)) if look != HIDDEN]
        trial.same(f"what {module} sees", found, seen)
        built = [it for it, use in enumerate(uses) if tab.value(CHECKED.format(module=module, text=json.dumps(use))) == "ok"]
        trial.same(f"what a script of {module} can use", built, seen)


TYPED = "void f() {\n    /* \u00e9\U0001d11e */ int x = tru;\n}\nvoid g() {\n    quota = 1;\n}\n"
MARKS = "[...document.querySelectorAll('.marks mark')].map(it => [it.className, it.textContent])"
PLACE = """(() => {{ const area = document.querySelector('#section-{number}'); const mark = document.querySelectorAll('.marks mark')[{mark}];
    const style = getComputedStyle(area); const pen = document.createElement('canvas').getContext('2d'); pen.font = style.font;
    const a = area.getBoundingClientRect(), m = mark.getBoundingClientRect();
    const left = pen.measureText(area.value.split('\\n')[{line}].slice(0, {before})).width + parseFloat(style.paddingLeft);
    const top = {line} * parseFloat(style.lineHeight) + parseFloat(style.paddingTop);
    return [Math.abs(m.left - a.left - left), Math.abs((m.top + m.bottom) / 2 - a.top - top - parseFloat(style.lineHeight) / 2)]; }})()"""


def try_modules(trial):
    with trial.served() as served:
        tab = opened(trial, served)
        choose(tab, "guest")
        tab.write("#section-0", TYPED)
        trial.that(
            "a typed text is checked",
            tab.wait(f"JSON.stringify({MARKS}) === '[[\"wrong\",\"tru\"],[\"denied\",\"quota\"]]'"),
            tab.value(MARKS),
        )
        try_places(trial, tab)
        try_denial(trial, tab)
        try_sections(trial, tab)
        trial.same("the console was told no error", tab.complaints(), [])
        tab.close()
        try_bindings(trial, served)


def try_places(trial, tab):
    line = TYPED.split("\n")[1]
    for mark, (number, before) in enumerate([(1, len(line[: line.index("tru")].encode("utf-16-le")) // 2), (4, 4)]):
        across, down = tab.value(PLACE.format(number=0, mark=mark, line=number, before=before))
        trial.that(f"mark {mark} is under its word", across < 2 and down < 4, (across, down))
    problems = tab.text("#problems")
    trial.that("an error is told with its place and sentence", "0:2:" in problems and "there is no 'tru'" in problems, problems)
    tab.click("#problems li:first-child .place")
    chosen = tab.value(
        "(() => { const it = document.activeElement; return it.value.slice(it.selectionStart, it.selectionEnd); })()"
    )
    trial.same("its place leads to the word", chosen, "tru")
    trial.picture(tab, "modules")


def try_denial(trial, tab):
    denial = tab.text("#problems .denial")
    for part in ("int64 quota", "entry 2", "00000002", "00000001", "Bit 1 would do"):
        trial.that(f"the denial tells {part}", part in denial, denial)
    before = texts(tab)[2]
    tab.write("#section-0", "void g() { quota = 1; }")
    trial.that(
        "the denial stands at the new place", tab.wait("document.querySelector('#problems .place')?.innerText === '0:1:12'")
    )
    tab.click("#problems .denial button")
    trial.that(
        "its button sets the bit, after which nothing is denied",
        tab.wait("document.querySelectorAll('#problems li').length === 0"),
    )
    trial.same("the mask has the bit", tab.text("#mask-hex"), "00000003")
    trial.same("the module was only checked", tab.text("#module-state"), "not built, edited since")
    trial.same("checks are no commands", texts(tab)[2], before + "ok\n")
    tab.click("#build")
    trial.that("it is built", tab.wait("document.querySelector('#module-state').innerText === 'built under 00000003'"))


def try_sections(trial, tab):
    """Sections and modules are made and taken away. What an answer is late for is not shown of another module."""
    tab.click("#add-section")
    tab.write("#section-1", "void h() { nothing(); }")
    trial.that("an error of the second section", tab.wait("document.querySelector('#problems .place')?.innerText === '1:1:12'"))
    inside = "document.querySelectorAll('.section')[1].querySelector('mark')?.textContent"
    trial.same("it is marked in the second editor", tab.value(inside), "nothing")
    tab.click(".section:nth-child(2) .small")
    trial.that(
        "a section is removed",
        tab.wait("document.querySelectorAll('.section').length === 1 && document.querySelectorAll('#problems li').length === 0"),
    )
    tab.write("#section-0", "void f() { nothing(); }")
    tab.value("document.querySelector('#build').click(); document.querySelector('input[name=module][value=staff]').click()")
    texts(tab)
    trial.same("a late build's errors are not shown of the module that is chosen now", tab.text("#problems"), "None.")
    choose(tab, "guest")
    trial.that("but of its own", "nothing" in tab.text("#problems"), tab.text("#problems"))
    tab.write("#new-name", "third")
    tab.click("#add-module button")
    trial.that("a module is made", tab.wait("document.querySelector('#module-name').innerText === 'third'"))
    trial.same("it has a column", tab.value(HEADS), ["staff", "guest", "third"])
    tab.write("#new-name", "third")
    tab.click("#add-module button")
    trial.that(
        "a second one of the name is refused",
        tab.wait("document.querySelector('#message').innerText.includes('ModuleExists')"),
    )
    tab.click("#discard")
    trial.that("a module is discarded", tab.wait(f"JSON.stringify({HEADS}) === '[\"staff\",\"guest\"]'"))


BOUND = "[document.querySelectorAll('.arrows path.bound').length, document.querySelectorAll('.arrows path.unbound').length]"


def try_bindings(trial, served):
    tab = opened(trial, served, "plugins")
    choose(tab, "counter")
    trial.same("bindings are arrows", tab.value(BOUND), [2, 0])
    label = tab.value("document.querySelector('.arrows').getAttribute('aria-label')")
    trial.that("they are told in words", "counter imports Document@ front(), bound to editor" in label, label)
    chosen = tab.value("[...document.querySelectorAll('#imports select')].map(it => it.value)")
    trial.same("lists show what is bound", chosen, ["editor", "Document@ front()", "editor", "int64 note(int64 what)"])
    trial.picture(tab, "bindings")
    tab.click("#imports li:first-child button:last-child")
    trial.that("an import is unbound", tab.wait(f"JSON.stringify({BOUND}) === '[1,1]'"))
    tab.choose("#function", "0")
    tab.click("#do-call")
    trial.that(
        "a call of it is the fault Unbound", tab.wait("document.querySelector('#result').innerText.includes('fault Unbound')")
    )
    tab.click("#imports li:first-child button")
    trial.that("it is bound again", tab.wait(f"JSON.stringify({BOUND}) === '[2,0]'"))
    choose(tab, "editor")
    tab.click("#build")
    trial.that("a build of the exporter ends the bindings", tab.wait(f"JSON.stringify({BOUND}) === '[0,2]'"))
    tab.close()
