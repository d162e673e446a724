"""The demonstration: three servers, of which some are killed, and the sum of all accounts."""
import os
import re
import subprocess

import fixtures
from fixtures import LONG, ROOT, ServerTest


class Demo(ServerTest):
    def test_it_ends_clean(self):
        how = {"env": {**os.environ, "DSMDB": fixtures.ENGINE, "TMPDIR": self.folder}, "capture_output": True, "text": True, "timeout": 3 * LONG}
        ran = subprocess.run([fixtures.SERVER, "demo", "--seconds", "7", "--examples", f"{ROOT}/examples"], **how)
        self.assertEqual((ran.returncode, ran.stderr), (0, ""))
        self.assertIn("server one is killed", ran.stdout)
        self.assertTrue(set(re.findall(r"sum of all accounts (?:is )?(\d\S+)", ran.stdout)) == {"32000.00"}, ran.stdout)
        self.assertRegex(ran.stdout.splitlines()[-1], r"^[1-9]\d* transfers were committed; the sum of all accounts is 32000.00 ")
        self.assertEqual(os.listdir(self.folder), ["settings"])
        left = subprocess.run(["pgrep", "-f", f"{self.folder}/dsmdb-demo-"], capture_output=True, text=True)
        self.assertEqual(left.stdout, "")
