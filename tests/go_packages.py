"""Tests of the server's packages (server/), by Debian's Go."""
import json
import tempfile

import serving
from serving import Tree

FUZZED = [("batch", "FuzzRead"), ("wire", "FuzzRead"), ("wire", "FuzzReadEntry"), ("ends", "FuzzOf"), ("layout", "FuzzPack"), ("api", "FuzzCall")]
SECONDS = 20  # of fuzzing, for each
MINUTES = 5  # that the tests of a package may take


def there(tally):
    if not serving.missing():
        return True
    tally.leave_out("the server", serving.install_line())
    return False


def run_tests(tree, tally, *more):
    """Counts the server's tests, and prints which failed, with their parts, and which were under way when their package did."""
    passed, failed, said, ended = 0, [], {}, set()
    ran = tree.ran("go", "test", "-json", "-count=1", f"-timeout={MINUTES}m", *more, "./...")
    for line in ran.stdout.splitlines():
        try:
            event = json.loads(line)
        except ValueError:
            print(line)  # what didn't compile
            continue
        name = (event["Package"], event.get("Test", ""))
        if event["Action"] in ("pass", "fail", "skip"):
            ended.add(name)
        if event["Action"] == "output":
            said.setdefault(name, []).append(event["Output"])
        elif event["Action"] == "fail":
            failed.append(name)
        elif event["Action"] == "pass" and name[1] and "/" not in name[1]:
            passed += 1
    # a package fails with its tests, and counts where none of them is named
    failed = [it for it in failed if it[1] or not any(other[0] == it[0] and other[1] for other in failed)]
    for name in failed:
        print(f"{' '.join(name)}: FAILED\n{''.join(said.get(name, []))}", end="")
    packages = {package for package, _ in failed}
    for name in sorted(name for name in said if name[0] in packages and name not in ended):
        print(f"{' '.join(name)}: DIDN'T END\n{''.join(said[name])}", end="")
    whole, count = ran.returncode == 0 and passed > 0, sum("/" not in test for _, test in failed)
    print(f"tests of the server{' '.join(['', *more])}: {passed} passed, {count} failed", flush=True)
    tally.count(passed, count or int(not whole))


def run(program, tally):
    if there(tally):
        with tempfile.TemporaryDirectory(prefix="server-") as room:
            run_tests(Tree(room, program), tally)


def run_long(program, tally):
    """Format, vet, the race detector, and some fuzzing."""
    if not there(tally):
        return
    with tempfile.TemporaryDirectory(prefix="server-") as room:
        tree = Tree(room, program)
        found = tree.ran("gofmt", "-l", ".").stdout
        tally.tell("the server's format", not found, found)
        found = tree.ran("go", "vet", "./...")
        tally.tell("go vet of the server", found.returncode == 0, found.stdout)
        run_tests(tree, tally, "-race", "-short")
        for package, name in FUZZED:
            found = tree.ran("go", "test", f"-fuzz={name}$", f"-fuzztime={SECONDS}s", f"./{package}")
            tally.tell(f"fuzzing of {package} ({name})", found.returncode == 0, found.stdout[-2000:])
