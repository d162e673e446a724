"""What tests came to: how many passed and failed, and what was left out."""


class Tally:
    def __init__(self):
        self.passed, self.failed, self.left_out = 0, 0, []

    def tell(self, name, well, why=""):
        """Counts a test, and prints how it went."""
        self.count(int(bool(well)), int(not well))
        print(f"{name}: {'as it should be' if well else f'FAILED {why}'}".rstrip(), flush=True)

    def count(self, passed, failed):
        """Counts tests that were told of already."""
        self.passed += passed
        self.failed += failed

    def leave_out(self, what, cure):
        """Prints what wasn't tested for want of a tool, and what brings it."""
        self.left_out.append(what)
        print(f"left out: {what} ({cure})", flush=True)

    def end(self, complete=False):
        """Prints the last line, where what is left out counts as a failure if all was asked for. Returns whether none failed."""
        failed = self.failed + (len(self.left_out) if complete else 0)
        if self.left_out:
            print(f"left out: {', '.join(self.left_out)}")
        print(f"{self.passed} passed, {failed} failed", flush=True)
        return not failed
