"""The estimated time left, and how much work this computer can do at once."""
import os
import pathlib

import pytest
from progress import SECONDS_A_CRATE, SECONDS_A_MEGABYTE, Progress, at_once, by_megabytes, free_memory, processors


def test_a_crate_without_a_budget_counts_as_the_mean_one() -> None:
    seconds = by_megabytes(["low", "wide"], {"low": 10, "high": 30})
    assert seconds == {name: SECONDS_A_CRATE + SECONDS_A_MEGABYTE * size for name, size in {"low": 10, "wide": 20}.items()}


def test_before_the_first_end_the_rest_takes_what_is_expected() -> None:
    assert Progress({"low": 10.0, "wide": 30.0}, 2).left() == 20.0


def test_then_the_rest_takes_its_share_of_the_time_so_far(capsys: pytest.CaptureFixture) -> None:
    progress = Progress({"low": 10.0, "wide": 30.0, "high": 10.0}, 1)
    progress.began -= 100
    progress.begin("low")
    progress.end("low", "proved")
    assert progress.left() == pytest.approx(400, rel=0.05)
    assert capsys.readouterr().out.splitlines()[-1].startswith("[ 1/3] low: proved, in 0 s; about 6 min ")


def test_what_was_cached_says_nothing_of_the_pace(capsys: pytest.CaptureFixture) -> None:
    progress = Progress({"low": 10.0, "wide": 30.0}, 1)
    progress.end("low", "proved before", is_fresh=False)
    progress.end("low", "again")
    assert progress.left() == 30.0
    assert capsys.readouterr().out == "[ 1/2] low: proved before; about 30 s left\n"


def test_as_many_side_by_side_as_processors_and_memory_hold_and_one_at_least() -> None:
    assert [at_once(4, free=free, lanes=lanes) for free, lanes in ((17, 8), (17, 2), (3, 8))] == [4, 2, 1]


@pytest.mark.parametrize(("limit", "quota", "memory", "count"), [("5000000", "100000", 3000000, 1), ("max", "max", 8192000, len(os.sched_getaffinity(0)))])
def test_a_container_has_what_it_may_use(tmp_path: pathlib.Path, limit: str, quota: str, memory: int, count: int) -> None:
    texts = {"meminfo": "MemAvailable:    8000 kB\n", "memory.max": f"{limit}\n", "memory.stat": "anon 2000000\nfile 9000000\n", "cpu.max": f"{quota} 100000\n"}
    for name, text in texts.items():
        (tmp_path / name).write_text(text, encoding="ascii")
    assert (free_memory(f"{tmp_path}/meminfo", str(tmp_path)), processors(str(tmp_path))) == (memory, count)
