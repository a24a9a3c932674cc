"""Many matches as a job array of Slurm on three nodes. One node dies."""

import json
import pathlib
import subprocess
import tempfile
import time

import pytest
from support import GAMES, TOP, InFolder, program
from test_slurm import Cluster, why_not

MATCHES = 60


@pytest.mark.gate
class JobArray(InFolder):
    def setUp(self):
        if why := why_not():
            self.skipTest(why)
        super().setUp()
        self.cluster = Cluster(pathlib.Path(self.enterContext(tempfile.TemporaryDirectory())))
        self.addCleanup(self.cluster.end)

    def rows(self):
        return [row for file in self.folder.glob("records/*") for row in file.read_bytes().splitlines(keepends=True) if row.endswith(b"\n")]

    def test_each_match_has_one_lawful_record_though_a_node_dies(self):
        rules = GAMES / "countdown.kif"
        submit = ["sbatch", "--wait", "--array=0-5", f"--output={self.folder}/%a.log", TOP / "examples/cluster/collect"]
        pipes = {"text": True, "stdout": subprocess.PIPE, "stderr": subprocess.STDOUT}
        submitted = subprocess.Popen([*submit, program(), rules, str(MATCHES), self.folder / "records"], cwd=TOP, env=self.cluster.environment, **pipes)
        while submitted.poll() is None and len(self.rows()) < 10:
            time.sleep(0.1)
        self.cluster.kill("n1")
        out, _ = submitted.communicate(timeout=600)
        logs = "\n".join(file.read_text() for file in self.folder.glob("*.log"))
        self.assertEqual(submitted.returncode, 0, out + logs)
        rows = self.rows()
        self.assertEqual(sorted(json.loads(row)["matchId"] for row in rows), sorted(f"m{number}" for number in range(MATCHES)), logs)
        checked = subprocess.run([program(), "verify", "--lines", "--rules-file", rules], input=b"".join(rows), capture_output=True)
        self.assertEqual((checked.returncode, checked.stdout), (0, b"lawful\n" * MATCHES))
