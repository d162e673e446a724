"""A command that is told to end ends by an exception, so that what it started and wrote is cleared away."""
import signal
import sys


def stop(number, _frame):
    sys.exit(128 + number)


def end_in_order():
    for number in (signal.SIGTERM, signal.SIGINT, signal.SIGHUP):
        if signal.getsignal(number) != signal.SIG_IGN:
            signal.signal(number, stop)
