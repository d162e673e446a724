"""Tests of the package: made, laid over the machine's files in a room of its own, and used there by another user."""
import os
import subprocess
import tempfile

from workspace import ROOT

LIMIT = 120  # seconds
# run where the package's files lie over the machine's, for this process alone
SCRIPT = """
set -e
mount -t overlay package -o lowerdir="$1/usr:/usr" /usr
systemd-analyze verify dsmdb@shop.service
man -w dsmdb > /dev/null
cd "$2"
as_nobody() { setpriv --reuid 65534 --regid 65534 --clear-groups "$@"; }
as_nobody dsmdb replay "$3/examples/two-replicas.dsm" > replayed
cmp replayed "$3/examples/two-replicas.out"
ledger=/usr/share/dsmdb/examples/ledger
setpriv --reuid 65534 --regid 65534 --clear-groups dsmdb serve $ledger/settings --data "$2/db" --layout $ledger/layout.json > log 2>&1 &
trap "kill -9 $! 2> /dev/null" EXIT
for turn in $(seq 100); do grep -q 'answers from' log && break; sleep 0.1; done
as_nobody dsmdb call --at "$2/db" open account=7
as_nobody dsmdb call --at "$2/db" deposit account=7 amount=5 day=1
as_nobody dsmdb rows --at "$2/db" --hex | tail -n 1
as_nobody python3 -c "import sys; sys.path.insert(0, '/usr/lib/python3/dist-packages'); import dsmdb; print(dsmdb.Client(['$2/db']).status()['committed'])"
kill %1
wait %1
trap - EXIT
"""
EXPECTED = ["committed 3 reply 0", "committed 5 reply 0", "position 5 rows 2", "2"]


def run(program, tally):
    if os.geteuid():
        tally.leave_out("the package", "run it as root, in a mount namespace of its own")
        return
    with tempfile.TemporaryDirectory(prefix="package-") as room:
        os.chmod(room, 0o755)
        os.mkdir(f"{room}/work")
        os.chmod(f"{room}/work", 0o777)
        made = subprocess.run([f"{ROOT}/packaging/build", room], env={**os.environ, "DSMDB": program}, capture_output=True, text=True)
        if made.returncode:
            tally.tell("the package", False, made.stderr[-500:])
            return
        subprocess.run(["dpkg-deb", "-x", made.stdout.strip(), f"{room}/root"], check=True)
        os.chmod(f"{room}/root", 0o755)
        words = ["unshare", "--mount", "bash", "-c", SCRIPT, "package", f"{room}/root", f"{room}/work", ROOT]
        ran = subprocess.run(words, capture_output=True, text=True, timeout=LIMIT)
        well = ran.returncode == 0 and ran.stdout.splitlines() == EXPECTED
        tally.tell("the package, installed and used by another user", well, f"{ran.returncode} {ran.stdout}{ran.stderr}"[-800:])
