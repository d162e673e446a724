"""Tests of servers with their clients, around a program: as processes, under faults."""
import contextlib
import os
import re
import shutil
import signal
import subprocess
import tempfile
import threading

import serving
import workspace

INSTALL = "apt-get install etcd-server etcd-client"
TOOLS = [  # a command, what asks for it, and its package
    ("openssl", "TLS", "openssl"), ("ip", "servers that are cut off", "iproute2"), ("ps", "engines that are killed", "procps"),
    ("chromedriver", "the console in a browser", "chromium chromium-driver"),
]
LIMIT = 1800  # seconds, after which the tests are ended


@contextlib.contextmanager
def started(words, drawn):
    """Runs a command in a folder for what it leaves, and ends it, and all that it started, at the end."""
    room = tempfile.mkdtemp(prefix="servers-")
    how = {"stdout": subprocess.PIPE, "text": True, "errors": "replace", "env": {**os.environ, **drawn, "TMPDIR": room}}
    tests = subprocess.Popen(words, start_new_session=True, **how)

    def end():
        with contextlib.suppress(ProcessLookupError):
            os.killpg(tests.pid, signal.SIGKILL)

    limit = threading.Timer(LIMIT, end)
    limit.start()
    try:
        yield tests
    finally:
        limit.cancel()
        end()
        tests.wait()
        shutil.rmtree(room, ignore_errors=True)


def run_tests(program, tally, *names, **drawn):
    """Runs the tests, or those of some names, with the seed and the seconds of drawn faults."""
    server = serving.built()
    if server is None:
        tally.tell("the server", False, "it can't be built")
        return
    words = [f"{workspace.ROOT}/server/tests/run", "--engine", program, "--server", server, *names]
    ending = None
    with started(words, drawn) as tests:
        for line in tests.stdout:
            if found := re.fullmatch(r"(\d+) passed, (\d+) failed\n", line):
                ending = found
            else:
                print(line, end="", flush=True)
        status = tests.wait()
    if not ending:
        print(f"the tests of servers ended with status {status}, and without a last line", flush=True)
    passed, failed = map(int, ending.groups()) if ending else (0, 1)
    tally.count(passed, failed or int(status != 0))


def run(program, tally):
    if serving.missing():
        tally.leave_out("servers with clients", serving.install_line())
        return
    run_tests(program, tally)
    if not (shutil.which("etcd") and shutil.which("etcdctl")):
        tally.leave_out("orders in etcd", INSTALL)
    for command, what, package in TOOLS:
        if not shutil.which(command):
            tally.leave_out(what, f"apt-get install {package}")


def run_long(program, tally):
    """Transfers under other faults, for a minute each."""
    if not serving.missing():
        run_tests(program, tally, "test_transfers", SEED="2", SECONDS="60")
