"""What `./test` runs, by name, with a program, and what `./prove` runs beside it."""
import sys
import traceback

import command_lines
import debian_package
import examples
import forms
import go_packages
import launcher
import procedures
import servers
import threads

SUITES = {
    "examples": examples.run,
    "commands": command_lines.run,
    "forms": forms.run,
    "threads": threads.run,
    "procedures": procedures.run,
    "layouts": procedures.run_layouts,
    "launcher": launcher.run,
    "server": go_packages.run,
    "servers": servers.run,
}
LONGER = {
    "refused growths": threads.run_long,
    "transfers": servers.run_long,
    "server, longer": go_packages.run_long,
    "package": debian_package.run,
}


def run(program, tally, suites):
    """Runs some suites. One that ends in an exception has failed, and the others run."""
    for name, suite in suites.items():
        try:
            suite(program, tally)
        except Exception as fault:
            traceback.print_exc(file=sys.stdout)
            tally.tell(f"suite {name}", False, f"ended in {type(fault).__name__}")
