"""The verdicts of an independent program on records, compared with the referee's."""

import subprocess

from support import TOP, program


def test_the_program_says_of_records_what_the_oracle_says() -> None:
    subprocess.run([TOP / "tests/oracle/records.py", "--program", program()], check=True)
