"""Tries controls: each is reached by Tab, has a name, and works by the keyboard; and that nothing overflows."""

import json

from running import SAMPLES
from tabs import bit, column, opened

ROLES = {"button", "checkbox", "radio", "textbox", "searchbox", "combobox", "link", "region", "spinbutton", "DisclosureTriangle", "listbox", "menuitem"}
EXPORTER, IMPORTER, DENIED, TYPE, CALLED, HIDDEN, MADE = (letter * 240 for letter in "ABCTFGM")
LONG_PROFILE = f"""mask 00000001
type {TYPE} 1
factory {TYPE} 1 {TYPE}@ f(int)
function 0 0 void {CALLED}(int64)
mask 00000002
function 0 1 int64 {HIDDEN}(int64, int64)
"""
LONG_SESSION = f"""module {EXPORTER} 00000001
section {EXPORTER} 2
{TYPE}@ {MADE};
int {MADE}{'x' * 9}() {{ @{MADE} = {TYPE}(7); {CALLED}(1); {CALLED}(1 / 0); return 1; }}
build {EXPORTER}
call {EXPORTER} () int {MADE}{'x' * 9}()
module {IMPORTER} 00000001
section {IMPORTER} 1
import int {MADE}{'x' * 9}() from "{EXPORTER}"; int f() {{ return {MADE}{'x' * 9}(); }}
build {IMPORTER}
bind {IMPORTER} 0 {EXPORTER} int {MADE}{'x' * 9}()
module {DENIED} 00000001
section {DENIED} 1
void f() {{ {HIDDEN}(1, 2); }}
build {DENIED}
"""
OPEN_ALL = "document.querySelectorAll('details').forEach(it => { it.open = true; })"
CONTROLS = """(() => { const all = [...document.querySelectorAll('a[href],button,input,select,textarea,summary,[tabindex]')];
    window.controls = all.filter(it => !it.disabled && it.checkVisibility() && !(it.type === 'radio' && !it.checked));
    return window.controls.length; })()"""
FOCUSED = "window.controls.indexOf(document.activeElement)"
NAMED = "window.controls.map(it => it.id || it.textContent.slice(0, 30) || it.tagName)"
OVER = """(() => { const wide = document.documentElement.clientWidth, over = [];
    const scrolls = (it) => { for (let up = it.parentElement; up && up !== document.body; up = up.parentElement)
        if (['auto', 'scroll', 'hidden', 'clip'].includes(getComputedStyle(up).overflowX)) return true; return false; };
    for (const it of document.querySelectorAll('body *')) { const box = it.getBoundingClientRect();
        if (box.width && (box.right > wide + 1 || box.left < -1) && !scrolls(it)) over.push(it.tagName + '#' + it.id + '.' + it.className);
        const style = getComputedStyle(it);
        if (style.overflowX === 'visible' && !it.closest('svg') && it.clientWidth && it.scrollWidth > it.clientWidth + 1 && style.display !== 'inline')
            over.push('in ' + it.tagName + '#' + it.id + '.' + it.className); }
    return [document.documentElement.scrollWidth - wide, over]; })()"""
WIDE_TEXTS = """[...document.querySelectorAll('.arrows text')].map(it => [it.textContent, it.getBBox().width])
    .filter(([text, wide], number, all) => wide > (document.querySelectorAll('.arrows text')[number].matches('.box') ? 150 : 312))"""
CONTRAST = """(() => { const parts = (text) => (text.match(/[\\d.]+/g) || [0, 0, 0, 0]).map(Number);
    const light = (c) => { const [r, g, b] = c.map(v => { v /= 255; return v <= 0.03928 ? v / 12.92 : ((v + 0.055) / 1.055) ** 2.4; });
        return 0.2126 * r + 0.7152 * g + 0.0722 * b; };
    const back = (it) => { for (; it; it = it.parentElement) { const c = parts(getComputedStyle(it).backgroundColor);
        if (c.length < 4 || c[3] > 0.9) return c.slice(0, 3); } return [255, 255, 255]; };
    const poor = []; const walk = document.createTreeWalker(document.body, NodeFilter.SHOW_TEXT);
    while (walk.nextNode()) { const it = walk.currentNode.parentElement;
        if (!walk.currentNode.textContent.trim() || !it.checkVisibility() || it.closest('.marks,:disabled,.unseen')) continue;
        const a = light(parts(getComputedStyle(it).color).slice(0, 3)), b = light(back(it));
        const found = (Math.max(a, b) + 0.05) / (Math.min(a, b) + 0.05);
        if (found < 4.5) poor.push([found.toFixed(2), it.className, walk.currentNode.textContent.trim().slice(0, 20)]); }
    return poor; })()"""


def try_controls(trial):
    with trial.served() as served:
        tab = opened(trial, served, "plugins")
        tab.value(OPEN_ALL)
        try_names(trial, tab)
        try_tab(trial, tab)
        tab.close()
        try_keyboard(trial, served)


def try_names(trial, tab):
    nodes = tab.do("Accessibility.getFullAXTree")["nodes"]
    controls = [it for it in nodes if not it.get("ignored") and it.get("role", {}).get("value") in ROLES]
    trial.that("there are controls", len(controls) > 70, len(controls))
    nameless = [it["role"]["value"] for it in controls if not it.get("name", {}).get("value", "").strip()]
    trial.same("each control has a name", nameless, [])
    names = [(it["role"]["value"], it["name"]["value"]) for it in controls if it["role"]["value"] == "button"]
    trial.same("no two buttons have one name", sorted({it for it in names if names.count(it) > 1}), [])


def try_tab(trial, tab):
    """All controls are come to by Tab, and back by Shift and Tab."""
    count = tab.value(CONTROLS)
    for shift in (False, True):
        tab.value("document.activeElement.blur()")
        reached = set()
        for _ in range(count + 30):
            tab.press("Tab", shift)
            reached.add(tab.value(FOCUSED))
        missed = [name for number, name in enumerate(tab.value(NAMED)) if number not in reached]
        trial.same("controls that Tab does not reach" + (" backwards" if shift else ""), missed, [])


def try_keyboard(trial, served):
    """A mask is changed, a module chosen and a function called without a mouse."""
    tab = opened(trial, served)
    tab.value("document.querySelector('input[name=module]:checked').focus()")
    tab.press("ArrowRight")
    trial.same("an arrow chooses a module", tab.text("#module-name"), "staff")
    tab.value(f"document.querySelector(\"{bit(0)}\").focus()")
    outline = tab.value("getComputedStyle(document.activeElement.nextElementSibling).outlineStyle")
    trial.same("what has the focus is seen", outline, "solid")
    tab.press("Space")
    trial.same("the space bar changes a bit", column(tab, "staff"), ["seen", "next", "seen", "seen"])
    tab.value("document.querySelector('#function').focus()")
    tab.press("ArrowDown")
    tab.value("document.querySelector('#values input').focus()")
    tab.press("Enter")
    trial.that("Enter calls", tab.wait("document.querySelector('#result').innerText.includes('ok 41')"), tab.text("#result"))
    tab.close()


def try_overflow(trial):
    with trial.served() as served:
        try_long_names(trial, served)
        for name in SAMPLES:
            tab = opened(trial, served, name)
            tab.value(OPEN_ALL)
            for width in (1280, 400):
                for scheme in ("light", "dark"):
                    tab.size(width, 900)
                    tab.colours(scheme)
                    what = f"{name} at {width}, {scheme}"
                    trial.same(f"what overflows in {what}", tab.value(OVER), [0, []])
                    trial.same(f"texts without contrast in {what}", tab.value(CONTRAST), [])
                    trial.picture(tab, f"{name}-{width}-{scheme}")
            dark = tab.value("getComputedStyle(document.body).backgroundColor")
            tab.colours("light")
            trial.that(
                f"{name} has other colours in the dark",
                dark != tab.value("getComputedStyle(document.body).backgroundColor"),
                dark,
            )
            tab.close()


def try_long_names(trial, served):
    """Names as long as a script can have them."""
    tab = opened(trial, served)
    for selector, text in (("#share-profile", LONG_PROFILE), ("#share-session", LONG_SESSION)):
        tab.value(f"document.querySelector('{selector}').value = {json.dumps(text)}")
    tab.click("#load")
    trial.that("long names are opened", tab.wait("document.querySelector('#registrations-sum').innerText === '4 entries, 3 modules'"), tab.text("#message"))
    for module in (EXPORTER, IMPORTER, DENIED):
        tab.click(f"input[name=module][value={module}]")
        tab.value(OPEN_ALL)
        for width in (1280, 400):
            tab.size(width, 900)
            trial.same(f"what overflows of {module[:2]}.. at {width}", tab.value(OVER), [0, []])
    trial.same("texts that are wider than their place in the drawing", tab.value(WIDE_TEXTS), [])
    trial.picture(tab, "long-names-400")
    tab.close()
