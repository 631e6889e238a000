"""What trials do in a tab of the page, as a person does, and what they read there."""

import json

LOOKS = """[...document.querySelectorAll('#table tbody tr')].map(row =>
    [...row.querySelectorAll('td.cell')].map(cell => cell.className.replace('cell ', '')))"""
HEADS = "[...document.querySelectorAll('#table thead .of-module .name')].map(it => it.textContent)"


def opened(trial, served, name="levels"):
    """A tab with a sample."""
    tab = trial.browser.tab()
    tab.size(1280, 900)
    tab.open(served.link)
    choose_sample(trial, tab, name)
    return tab


def choose_sample(trial, tab, name, before="levels"):
    """Chooses a sample in the place of another one."""
    if name != before:
        before = tab.text("#registrations-sum")
        tab.choose("#sample", name)
        trial.that(
            f"the sample {name} is opened",
            tab.wait(f"document.querySelector('#registrations-sum').innerText !== {json.dumps(before)}"),
        )
    tab.wait("document.querySelector('#share-session').value !== ''")


def choose(tab, module):
    """Chooses a module as a person does."""
    tab.click(f"input[name=module][value={module}]")


def column(tab, module):
    number = tab.value(HEADS).index(module)
    return [row[number] for row in tab.value(LOOKS)]


def bit(number):
    return f"#bits input[data-bit='{number}']"


def call(tab, name, *values):
    """Calls a function of the chosen module, and waits for what came of it."""
    number = tab.value(f"[...document.querySelector('#function').options].find(it => it.text.includes(' {name}(')).value")
    tab.choose("#function", number)
    for place, value in enumerate(values):
        tab.write(f"[data-value='{place}']", value)
    tab.value("document.querySelector('#result').replaceChildren()")
    tab.click("#do-call")
    tab.wait("document.querySelector('#result .outcome')")
    return tab.text("#result .outcome code")


def texts(tab):
    """The profile, the session and the lines that the page writes."""
    tab.value("document.querySelector('#lines').textContent = 'none'")
    tab.click("#write")
    tab.wait("document.querySelector('#lines').textContent !== 'none'")
    return [tab.value(f"document.querySelector('{it}').{of}") for it, of in
            (("#share-profile", "value"), ("#share-session", "value"), ("#lines", "textContent"))]


def use_profile(tab, text):
    tab.value("document.querySelector('#profile-details').open = true")
    tab.write("#profile", text)
    tab.click("#use-profile")
