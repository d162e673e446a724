"""Rows of the specification of a site, on the engine that is tried."""
import fixtures
from fixtures import ADD, CLAIM, ONE, ONE_ADDED, ServerTest, words
from fixtures import increment as call

WINDOW = f"window 4\ntable 1 8\nadditions\nproc add 1 16 {ADD}\n"

class Rows(ServerTest):
    def answers(self, *lines, settings=WINDOW):
        """Asks lines of an engine one after the other: each answer is there before the next line is given."""
        process = fixtures.engine(settings, self.folder)
        found = []
        for line in lines:
            process.stdin.write(line + "\n")
            process.stdin.flush()
            found.append(process.stdout.readline().rstrip("\n"))
            while line in ("rows", "dump") and not found[-1].startswith("position"):
                found.append(process.stdout.readline().rstrip("\n"))
        rest, said = process.communicate()
        self.assertEqual((rest, said, process.returncode), ("", "", 0))
        return found

    def assert_answers(self, lines, settings):
        self.assertEqual(self.answers(*(line for line, _ in lines), settings=settings), [answer for _, answer in lines])

    def test_a_call_with_a_pair(self):
        string = call(7, 1, 5, 10, 0, 10)
        self.assertEqual(len(string), 2 * 84)
        asked = f"call add {words(5, 10)} 7 1"
        again = f"call add {words(9, 9)} 7 1"
        self.assertEqual(
            self.answers(asked, f"entry {string}", f"entry {string}", asked, again, "rows"),
            [
                f"submit {string}",
                "entry 1 commit reply 10 session 7 seq 1",
                "entry 2 repeat 1 reply 10 session 7 seq 1",
                "repeat 1 reply 10",
                "repeat 1 reply 10",
                " 1                    5 0a00000000000000",
                "position 2 rows 1",
            ],
        )

    def test_strings_that_are_untrue_or_unreadable(self):
        string = call(7, 1, 5, 10, 0, 10)
        rows = {
            string[:-2] + "01": "entry 1 nothing E5 session 7 seq 1",
            string[:-2]: "entry 1 nothing E5 session 7 seq 1",
            string[: 2 * 45]: "entry 1 nothing E5 session 7 seq 1",
            string[: 2 * 44]: "entry 1 nothing E1",
            call(7, 0, 5, 10, 0, 10): "entry 1 nothing E1",
            call(7, 1, 5, 10, 1, 10): "entry 1 nothing E3 session 7 seq 1",
        }
        for given, answer in rows.items():
            self.assertEqual(self.answers(f"entry {given}"), [answer])

    def test_two_sites_at_one_position(self):
        first, second = call(7, 1, 5, 10, 0, 10), call(8, 1, 5, 7, 0, 7)
        expected = ["entry 1 commit reply 10 session 7 seq 1", "entry 2 conflict 1 session 8 seq 1"]
        for asked, submitted in ((f"call add {words(5, 10)} 7 1", first), (f"call add {words(5, 7)} 8 1", second)):
            found = self.answers(asked, f"entry {first}", f"entry {second}")
            self.assertEqual(found, [f"submit {submitted}", *expected])

    def test_an_addition(self):
        added = self.answers(f"add one 9 0 {ONE}", f"entry {ONE_ADDED}", "call one - 0 0")
        self.assertEqual(added, [f"submit {ONE_ADDED}", "entry 1 added 9", "read 1 reply 1"])
        without = WINDOW.replace("additions\n", "")
        found = self.answers(f"add one 9 0 {ONE}", f"entry {ONE_ADDED}", settings=without)
        self.assertEqual(found, ["refused P14", "entry 1 nothing E2"])

    def test_a_claim(self):
        settings = WINDOW + f"proc claim 2 8 {CLAIM}\n"
        asked = f"call claim {words(5)} 7 1"
        (submitted,) = self.answers(asked, settings=settings)
        string = submitted.removeprefix("submit ")
        found = self.answers(f"entry {string}", asked, f"call claim {words(5)} 7 2", settings=settings)
        expected = ["entry 1 commit reply 0 session 7 seq 1", "repeat 1 reply 0", "cancelled 1 code 1"]
        self.assertEqual(found, expected)

    def test_sessions_that_an_order_opens(self):
        settings = f"window 4\ntable 1 8\nadditions\norigin 0 0\nproc add 1 16 {ADD}\n"
        opens, asked = "0002" + "07" * 16, f"call add {words(5, 10)}"
        first, kept, third = call(1, 1, 5, 10, 1, 10), call(1, 2, 5, 10, 2, 20), call(1, 3, 5, 10, 2, 20)
        lines = [
            (f"{asked} 1 1", "refused P15"),
            (f"entry {opens}", "entry 1 session 1"),
            (f"{asked} 1 1", f"submit {first}"),
            (f"entry {first}", "entry 2 commit reply 10 session 1 seq 1"),
            (f"{asked} 2 1", "refused P15"),
            (f"{asked} 1 2", f"submit {kept}"),
            (f"{asked} 1 3", f"submit {third}"),
            (f"entry {third}", "entry 3 commit reply 20 session 1 seq 3"),
            (f"entry {kept}", "entry 4 nothing E6 session 1 seq 2"),
            (f"entry {call(2, 1, 5, 10, 4, 30)}", "entry 5 nothing E7 session 2 seq 1"),
        ]
        self.assert_answers(lines, settings)

    def test_an_order_that_goes_on(self):
        request = f"request 1 3 20 1 {words(5, 10)}\n"
        settings = f"window 4\ntable 1 8\nadditions\norigin 3 1\nproc add 1 16 {ADD}\nrow 1 5 {words(20)}\n{request}"
        opens, asked = "0002" + "07" * 16, f"call add {words(5, 1)}"
        string = call(1, 4, 5, 1, 0, 21)
        lines = [
            (f"{asked} 1 3", "repeat 0 reply 20"),
            (f"{asked} 1 4", f"submit {string}"),
            (f"entry {string}", "entry 1 commit reply 21 session 1 seq 4"),
            (f"{asked} 1 2", "refused P15"),
            (f"{asked} 1 3", "refused P15"),
            (f"{asked} 2 1", "refused P15"),
            (f"entry {call(1, 3, 5, 1, 0, 21)}", "entry 2 nothing E6 session 1 seq 3"),
            (f"entry {call(3, 1, 5, 1, 3, 22)}", "entry 3 nothing E3 session 3 seq 1"),
            (f"entry {opens}", "entry 4 session 2"),
            (f"{asked} 2 1", f"submit {call(2, 1, 5, 1, 4, 22)}"),
        ]
        self.assert_answers(lines, settings)
        without = settings.replace(request, "request 2 0 0 0 -\n").replace("origin 3 1", "origin 4 2")
        submitted = call(2, 1, 5, 1, 0, 21)
        self.assert_answers([(f"{asked} 1 4", "refused P15"), (f"{asked} 2 1", f"submit {submitted}")], without)

    def test_a_dump_goes_on(self):
        begins = f"window 4\ntable 1 8\nadditions\norigin 0 0\nproc add 1 16 {ADD}\n"
        opens, first, third = "0002" + "07" * 16, call(1, 1, 5, 10, 1, 10), call(1, 3, 5, 10, 2, 20)
        *_, last = self.answers(*(f"entry {it}" for it in (opens, first, third)), "position", settings=begins)
        self.assertEqual(last, "position 3")
        found = self.answers(*(f"entry {it}" for it in (opens, first, third)), "dump", settings=begins)[3:]
        lines = ["window 4", "table 1 8", "additions", "origin 3 1", f"proc add 1 16 {ADD}", f"row 1 5 {words(20)}"]
        request = f"request 1 3 20 1 {words(5, 10)}"
        self.assertEqual(found, [*lines, request, "position 3 lines 7"])
        goes_on = "".join(f"{it}\n" for it in found[:-1])
        self.assertEqual(self.answers("dump", settings=goes_on), [*lines, request, "position 0 lines 7"])
        lines[3] = "origin 4 2"
        found = self.answers(f"entry {opens}", "dump", settings=goes_on)
        self.assertEqual(found, ["entry 1 session 2", *lines, request, "request 2 0 0 0 -", "position 1 lines 8"])

    def test_settings_of_an_order_that_goes_on(self):
        faults = {
            "origin 0 0\norigin 0 0\n": "line 3: L5",
            "request 1 0 0 0 -\norigin 0 1\n": "line 3: L5",
            "origin 0 1\nrequest 2 0 0 0 -\n": "line 3: L11 Q2",
            "origin 0 2\nrequest 2 0 0 0 -\nrequest 1 0 0 0 -\n": "line 4: L11 Q1",
            "origin 0 0\ntable 1 8\n": "line 3: L5",
            "origin 0\n": "line 2: L3",
            "origin 18446744073709551616 0\n": "line 2: L4",
            "origin 0 4294967296\n": "line 2: L4",
        }
        for lines, fault in faults.items():
            process = fixtures.engine("window 4\n" + lines, self.folder)
            out, said = process.communicate()
            self.assertEqual((out, said, process.returncode), ("", f"{fault}\n", 1))

    def test_positions_end(self):
        for before, answers in ((2**64 - 1, ["fault O1"]), (2**64 - 2, ["entry 1 nothing E1", "fault O1"])):
            settings = f"window 4\ntable 1 8\norigin {before} 0\n"
            lines = [*(["entry -"] * len(answers)), "position"]
            self.assertEqual(self.answers(*lines, settings=settings), [*answers, f"position {len(answers) - 1}"])

    def test_session_numbers_end(self):
        settings = f"window 4\ntable 1 8\norigin 0 4294967294\nproc add 1 16 {ADD}\n"
        opens = "entry 0002" + "07" * 16
        self.assertEqual(self.answers(opens, opens, settings=settings), ["entry 1 session 4294967295", "entry 2 nothing E1"])
        without = settings.replace("origin 0 4294967294\n", "")
        self.assertEqual(self.answers(opens, settings=without), ["entry 1 nothing E1"])
