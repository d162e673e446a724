"""The scripts of examples/: each is replayed, or run where its name ends in `-run`, and prints what stands beside it."""
import glob
import os
import subprocess

from workspace import ROOT


def unlike(program, script):
    """Says what a script does otherwise than the file beside it says; nothing where it is as it should be."""
    with open(script.removesuffix(".dsm") + ".out", "rb") as file:
        expected = file.read()
    command = "run" if script.endswith("-run.dsm") else "replay"
    try:
        ran = subprocess.run([program, command, script], stdin=subprocess.DEVNULL, capture_output=True, timeout=60)
    except (OSError, subprocess.TimeoutExpired) as error:
        return str(error)
    if (ran.returncode, ran.stdout, ran.stderr) == (0, expected, b""):
        return ""
    return f"status {ran.returncode}, {ran.stderr.decode(errors='replace')[:200]!r}, {len(ran.stdout)} bytes and not {len(expected)}, or others"


def run(program, tally):
    for script in sorted(glob.glob(f"{ROOT}/examples/**/*.dsm", recursive=True)):
        why = unlike(program, script)
        tally.tell(f"example {os.path.relpath(script, f'{ROOT}/examples')}", not why, why)
