"""`wrong_engine.py PROGRAM COUNT WORDS ..` runs a program as an engine, and changes one of its answers: the reply of the
COUNT-th commit."""
import os
import re
import subprocess
import sys
import threading

program, count = sys.argv[1], int(sys.argv[2])
real = subprocess.Popen([program, *sys.argv[3:]], stdin=subprocess.PIPE, stdout=subprocess.PIPE, close_fds=False)  # the settings are one of its files


def hand_on():
    while some := os.read(0, 1 << 16):
        real.stdin.write(some)
        real.stdin.flush()
    real.stdin.close()


threading.Thread(target=hand_on, daemon=True).start()
commits = 0
for line in real.stdout:
    if re.match(rb"entry \d+ commit ", line):
        commits += 1
        if commits == count:
            line = re.sub(rb"reply (\d+)", lambda it: b"reply %d" % (int(it[1]) + 1), line)
    sys.stdout.buffer.write(line)
    sys.stdout.buffer.flush()
sys.exit(real.wait())
