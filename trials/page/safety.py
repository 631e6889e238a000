"""Tries who is answered, what is fetched, what hostile texts do to the page, and when engines end."""

import json
import os
import socket
import time

from browser import BUSY, SECONDS, is_here
from tabs import call, choose, column, opened, use_profile

HURT = "<img src=x onerror='window.hurt=1'><script>window.hurt=1</script>"
MANY = 9
CROWD, HALVES = 400, 20  # connections, and those that tell the token
HEAVY = [
    ("a profile of comments that are never closed", "function 0 0 " + "/* " * 300_000 + "\n", ""),
    ("a profile of one long name", "function 0 0 " + "a" * 900_000 + "!\n", ""),
    ("an import with much space", "", "import" + " " * 30_000 + "int f(" + " " * 1100 + ') from "m";'),
    ("a script of quotes", "", '"' * 60_000),
    ("a script of brackets", "", "f(" * 30_000),
    ("long names that are much alike", "", "".join(f"int {'ab' * 110}{number:03}() {{ return {'ba' * 110}{number:03}; }}\n" for number in range(140))),
]
FULL_PROFILE = "mask 00000001\nfunction 0 0 void print(int64)\ntype Counter 1\nfactory Counter 1 Counter@ f(int)\n"
FULL = f"""void events() {{ for (int i = 0; i < 20000; i++) {{ print(i); }} }}
void objects(int n) {{ {''.join(f'Counter c{number}(n); ' for number in range(6))}if (n > 0) {{ objects(n - 1); }} }}
class Box {{ {''.join(f'int a{number}; ' for number in range(60))}}}
void slots(int n) {{ {''.join(f'Box b{number}; ' for number in range(10))}if (n > 0) {{ slots(n - 1); }} }}
void ticks() {{ while (true) {{}} }}
void depth(int n) {{ depth(n); }}
int fine() {{ return 1; }}
"""
FOREIGN = {
    "another origin": {"Origin": "http://evil.example"},
    "an origin of another port": {"Origin": "http://127.0.0.1:1"},
    "no origin that has a name": {"Origin": "null"},
    "another host": {"Host": "evil.example"},
    "the host's other name": {"Host": "localhost"},
    "no host": {"Host": None},
    "another site's link": {"Sec_Fetch_Site": "cross-site"},
    "another port's page": {"Sec_Fetch_Site": "same-site"},
}


def try_safety(trial):
    with trial.served() as served:
        try_asked(trial, served)
        try_forms(trial, served)
        try_addresses(trial, served)
        try_fetched(trial, served)
        try_hostile(trial, served)
        try_crowd(trial, served)
        try_heavy(trial, served)
        try_long(trial, served)
        try_full(trial, served)
    try_engines(trial)


def try_asked(trial, served):
    """Who has the token and comes from here is answered, and nobody else."""
    for method, path, body in (("GET", "", None), ("GET", "page.js", None), ("POST", "begin", {})):
        status, data, headers = served.asked(method, served.path + path, body)
        trial.same(f"{method} {path} with the token", status, 200)
        policy = headers.get("Content-Security-Policy", "")
        trial.that(
            f"{method} {path} has a policy",
            policy.startswith("default-src 'none'; script-src 'self'; style-src 'self'; connect-src 'self'; ") and "unsafe" not in policy,
            policy,
        )
        for wrong in ("/", "//", f"/{'a' * 32}/", served.path[:-2] + "/", served.path[:-1].lower() + "/", "/%00/"):
            status, data, _ = served.asked(method, wrong + path, body)
            trial.that(f"{method} {path} without the token is refused", status == 403 and len(data) < 100, (wrong, status))
        for what, headers in FOREIGN.items():
            status, data, _ = served.asked(method, served.path + path, body, **headers)
            trial.that(f"{method} {path} of {what} is refused", status in (400, 403) and len(data) < 400, status)
    trial.same(
        "its own origin is answered",
        served.asked("POST", served.path + "begin", {}, Origin=f"http://{served.address}")[0],
        200,
    )


def try_forms(trial, served):
    """Requests of other forms."""
    for path in ("../web.py", "%2e%2e/web.py", "page.html/..", "/etc/passwd", "web.py", "samples/game.profile"):
        trial.same(f"no other file: {path}", served.asked("GET", served.path + path)[0], 404)
    path = served.path + "begin"
    trial.same("a form's type", served.asked("POST", path, {}, Content_Type="text/plain")[0], 415)
    trial.same("no length", served.asked("POST", path, {}, Content_Length=None)[0], 411)
    trial.same("in chunks", served.asked("POST", path, {}, Transfer_Encoding="chunked")[0], 411)
    trial.same("too many bytes", served.asked("POST", path, {}, Content_Length=str((4 << 20) + 1))[0], 413)
    trial.same("a length of other digits", served.asked("POST", path, {}, Content_Length="\u00b2")[0], 411)
    trial.same("a length without an end", served.asked("POST", path, {}, Content_Length="9" * 400)[0], 413)
    for body in (b"", b"{", b"[]", b"1", b"[" * 100000, b"\xff", b'{"a":' * 50000):
        trial.same(f"no object: {body[:8]!r}", served.asked("POST", path, body)[0], 400)
    for name, body in (("nothing", {}), ("sample", {"name": "../../docs/HOST"}), ("sample", {}), ("open", {"profile": 1})):
        trial.same(f"no such operation, or of another form: {name}", served.asked("POST", served.path + name, body)[0], 400)
    answer = json.loads(served.asked("POST", served.path + "mask", {"page": "guessed", "name": "guest", "mask": 1})[1])
    trial.that("a page that nobody opened", "problem" in answer, answer)
    for method in ("PUT", "DELETE", "OPTIONS", "HEAD"):
        trial.that(f"{method} is not taken", served.asked(method, served.path)[0] >= 400)


def try_addresses(trial, served):
    """Only 127.0.0.1 is listened on."""
    addresses = {"127.0.0.2", "::1", "0.0.0.0"} - {"0.0.0.0"}
    with socket.socket(socket.AF_INET, socket.SOCK_DGRAM) as probe:
        try:
            probe.connect(("192.0.2.1", 9))
            addresses.add(probe.getsockname()[0])
        except OSError:
            pass  # a machine without another address
    with open("/proc/net/tcp", encoding="utf-8") as file:
        bound = {line.split()[1] for line in file if line.split()[3] == "0A" and line.split()[1].endswith(f":{served.port:04X}")}
    trial.same("what is listened on", bound, {f"0100007F:{served.port:04X}"})
    for address in sorted(addresses):
        try:
            socket.create_connection((address, served.port), 3).close()
            reached = True
        except OSError:
            reached = False
        trial.that(f"nothing answers on {address}", not reached)


def try_fetched(trial, served):
    tab = opened(trial, served)
    asked = tab.asked()
    trial.that("the page asked for its files", any(it.endswith("page.css") for it in asked), asked)
    trial.same("nothing is fetched from elsewhere", [it for it in asked if not is_here(it, served.address)], [])
    trial.that("the page can't fetch from elsewhere", tab.value("fetch('http://127.0.0.1:1/').then(() => false, () => true)"))
    broken = tab.value("new Promise(done => { document.addEventListener('securitypolicyviolation', it => done(it.violatedDirective));"
                       " const it = document.createElement('script'); it.textContent = 'window.hurt = 1'; document.body.append(it); setTimeout(() => done(''), 2000); })")
    trial.same("a script in the page is not run", [broken, tab.value("window.hurt")], ["script-src-elem", None])
    tab.close()


def try_hostile(trial, served):
    """Texts that would be harmful if any of them were taken for HTML."""
    tab = opened(trial, served)
    counted = tab.value("document.querySelectorAll('script, img, iframe').length")
    use_profile(tab, f"mask 00000001\nfunction 0 0 void f(int /* {HURT} */)\nenum {HURT.split()[0]}\n")
    trial.that(
        "a hostile line is refused",
        tab.wait("document.querySelector('#message').innerText.includes('of the profile')"),
        tab.text("#message"),
    )
    use_profile(tab, "mask 00000001\nfunction 0 0 void f(int)\n")
    tab.wait("document.querySelector('#registrations-sum').innerText.startsWith('1 entry')")
    choose(tab, "guest")
    tab.write("#section-0", f"import void g() from \"{HURT}\";\nvoid f2() {{ {HURT} }}\n</textarea>{HURT}")
    trial.that("a hostile text is judged", tab.wait("document.querySelectorAll('#problems li').length > 0"))
    tab.write("#section-0", f"import void g() from \"{HURT.split('>')[0]}>\"; void f2() {{}}")
    tab.click("#build")
    trial.that(
        "an import from a hostile name is drawn as text",
        tab.wait("document.querySelectorAll('.arrows path.unbound').length === 1"),
    )
    tab.write("#new-name", "<b>x</b>")
    tab.click("#add-module button")
    tab.wait("document.querySelector('#message').innerText.includes('BadName')")
    trial.same("a hostile name is no module", tab.text("#message"), "The module was not made: refused BadName")
    tab.write("#new-name", "__proto__")
    tab.click("#add-module button")
    trial.that(
        "a name that JavaScript knows is a module like others",
        tab.wait("document.querySelector('#module-name').innerText === '__proto__'"),
    )
    tab.write("#section-0", "void f3() { constructor(1); }")
    trial.that("with sections of its own", tab.wait("document.querySelector('#problems')?.innerText.includes(\"'constructor'\")"))
    found = tab.value("[window.hurt, document.querySelectorAll('script, img, iframe').length]")
    trial.same("nothing of it became a part of the page", found, [None, counted])
    tab.close()


def try_crowd(trial, served):
    """Many connections at once that say nothing, or never end what they say. Those with the token are answered meanwhile."""
    half = f"POST {served.path}begin HTTP/1.1\r\nHost: {served.address}\r\nContent-Type: application/json\r\nContent-Length: 9\r\n\r\n{{".encode()
    crowd = [socket.create_connection(("127.0.0.1", served.port), SECONDS) for _ in range(CROWD)]
    for number, it in enumerate(crowd):
        try:
            it.sendall(half if number < HALVES else b"GET /" if number % 2 else b"")
        except OSError:
            pass  # it had to go for others
    trial.same("who has the token is answered in a crowd", served.asked("POST", served.path + "begin", {})[0], 200)
    tab = opened(trial, served)
    trial.same("and a page is opened", tab.text("#registrations-sum"), "4 entries, 2 modules")
    tab.close()
    with open(f"/proc/{served.process.pid}/status", encoding="utf-8") as file:
        threads = int(next(it.split()[1] for it in file if it.startswith("Threads:")))
    trial.that("few of the crowd are kept", threads < HALVES + 50, threads)
    for it in crowd:
        it.close()


def try_heavy(trial, served):
    """Texts that are much work for who reads them carelessly: each is answered soon."""
    for name, profile, script in HEAVY:
        began = time.monotonic()
        session = f"module a 00000001\nsection a {script.count(chr(10)) + 1}\n{script}\nbuild a\n"
        status, data, _ = served.asked("POST", served.path + "open", {"profile": profile, "session": session})
        took = time.monotonic() - began
        trial.that(f"{name} is answered soon", status == 200 and took < 5 * BUSY, (status, took, data[:100]))


def try_long(trial, served):
    """A session of ten million bytes."""
    path = served.path + "open"
    trial.same("it is not taken", served.asked("POST", path, {"profile": "", "session": "#" * 10_000_000})[0], 413)
    tab = opened(trial, served)
    tab.value("document.querySelector('#share-session').value = '#'.repeat(10_000_000)")
    tab.click("#load")
    trial.that("which is told", tab.wait("document.querySelector('#message').innerText.startsWith('These texts are too long')"), tab.text("#message"))
    trial.same("what was there stays", tab.text("#registrations-sum"), "4 entries, 2 modules")
    trial.same("and is worked with", column(tab, "guest"), ["seen", "seen", "hidden", "hidden"])
    tab.close()


def try_full(trial, served):
    """A script that comes to each limit. The page goes on."""
    tab = opened(trial, served)
    use_profile(tab, FULL_PROFILE)
    tab.wait("document.querySelector('#registrations-sum').innerText.startsWith('3 entries')")
    choose(tab, "guest")
    tab.write("#section-0", FULL)
    tab.click("#build")
    tab.wait("document.querySelector('#module-state').innerText.startsWith('built')")
    found = [call(tab, name, *values) for name, *values in (("events",), ("objects", "199"), ("slots", "199"), ("ticks",), ("depth", "1"))]
    trial.same("each ends with its fault", found, ["fault Memory"] * 3 + ["fault Budget", "fault Depth"])
    trial.same("the next call is as any other", call(tab, "fine"), "ok 1")
    trial.same("nothing is held", tab.text("#objects"), "0 objects of 1,000; 0 slots of 100,000 of scripts' own objects.")
    trial.same("the console was told no error", tab.complaints(), [])
    tab.close()


def is_soon(holds, seconds=10.0):
    until = time.monotonic() + seconds
    while time.monotonic() < until and not holds():
        time.sleep(0.05)
    return holds()


def try_engines(trial):
    """Each page has an engine, which ends with it; and all end with the server."""
    with trial.served() as served:
        first, second = opened(trial, served), opened(trial, served)
        trial.that("each page has one engine", is_soon(lambda: len(served.engines()) == 2), served.engines())
        first.close()
        trial.that("one is ended as its page is left", is_soon(lambda: len(served.engines()) == 1), served.engines())
        second.value("location.reload()")
        trial.that(
            "and so by loading the page anew",
            second.wait("document.body.dataset.ready") and is_soon(lambda: len(served.engines()) == 1),
            served.engines(),
        )
        for _ in range(MANY):
            served.asked("POST", served.path + "open", {"profile": "", "session": ""})
        trial.that("there are at most eight", is_soon(lambda: len(served.engines()) == 8), served.engines())
        second.write("#section-0", "int edited;")
        second.click("#bits input[data-bit='1']")
        again = second.wait(
            "document.querySelector('#share-note').innerText.includes('done all again') && document.querySelector('#mask-hex').innerText === '00000003'",
        )
        trial.that("a page whose engine was ended has another one do all again", again, second.text("#message"))
        second.click("#write")
        told = second.wait(
            "document.querySelector('#share-session').value.includes('mask guest 00000003\\n#draft guest 1\\n#|int edited;\\n')",
        )
        trial.that(
            "with what was edited, and what was to be done",
            told,
            second.value("document.querySelector('#share-session').value"),
        )
        second.close()
        left = served.engines()
    trial.that("none is left", is_soon(lambda: not [it for it in left if os.path.exists(f"/proc/{it}")]), left)
