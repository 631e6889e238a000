"""The trial of the page: trials/page.sh says how it is run.

    trial.py ASRUN ASREMOTE [PART..]
"""

import os
import sys
import tempfile
import traceback

from browser import Browser
from controls import try_controls, try_overflow
from groups import try_groups
from masks import try_modules, try_registrations, try_views
from running import try_profiles, try_runs, try_share, try_traces
from safety import try_safety
from served import Served
from speed import try_newcomer, try_speed

PARTS = {
    "registrations": try_registrations, "groups": try_groups, "views": try_views, "modules": try_modules, "runs": try_runs, "traces": try_traces,
    "share": try_share,
    "profiles": try_profiles, "controls": try_controls, "overflow": try_overflow, "speed": try_speed,
    "newcomer": try_newcomer, "safety": try_safety,
}


class Trial:
    """The programs, the browser, where pictures go, and what was wrong so far."""

    def __init__(self, asrun, asremote):
        self.asrun, self.asremote = os.path.abspath(asrun), os.path.abspath(asremote)
        self.pictures = tempfile.mkdtemp(prefix="page-")
        self.browser = Browser(os.environ.get("CHROMIUM", "chromium"), tempfile.mkdtemp(prefix="browser-"))
        self.count = self.wrong = 0

    def that(self, what, holds, found=""):
        """Whether something holds that has to."""
        self.count += 1
        if not holds:
            self.wrong += 1
            print(f"WRONG: {what}" + (f": {found!r}" if found != "" else ""), flush=True)

    def same(self, what, found, wanted):
        self.that(what, found == wanted, f"{found!r} in the place of {wanted!r}" if found != wanted else "")

    def served(self, *words):
        """A server of its own, with these options beside."""
        return Served(self.asremote, *words)

    def picture(self, tab, name, whole=True):
        tab.picture(os.path.join(self.pictures, f"{name}.png"), whole)

    def try_part(self, name):
        """Tries a part. One that ends early is wrong."""
        try:
            PARTS[name](self)
        except Exception:  # what a part can't go on with
            traceback.print_exc()
            self.that(f"{name} comes to its end", False)
        print(f"{name}: {self.count} checks so far, {self.wrong} wrong", flush=True)


def main():
    trial = Trial(*sys.argv[1:3])
    try:
        for name in sys.argv[3:] or PARTS:
            trial.try_part(name)
    finally:
        trial.browser.close()
    print(f"screenshots: {trial.pictures}")
    print(f"{trial.count} checks, {trial.wrong} wrong")
    return trial.wrong > 0


if __name__ == "__main__":
    sys.exit(main())
