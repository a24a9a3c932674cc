"""The check of matches that were played: which matches are checked together, and that an error affects only the match that has it."""

import asyncio
import json
import threading

import pytest
from ggp_tools.competition import checking
from ggp_tools.competition.checking import Checking
from ggp_tools.referee import Unchecked
from live_support import plan_in, record_of
from support import stand_in


class Played:
    """Matches of a game, and a referee that waits until the test lets it continue."""

    def __init__(self, folder, fails=lambda records: None):
        self.plan = plan_in(str(folder), ["ann", "bob", "cid"])
        self.folder, self.fails, self.verified = self.plan.folder, fails, []
        self.folder.make(self.folder.accounts)
        self.may_go_on = threading.Event()
        self.checking = Checking(self.plan, stand_in(verdicts=self.verdicts, replays=lambda rules, accounts, records: [True] * len(records)))
        for match in self.plan.matches:
            self.folder.open_log(match.id).parent.mkdir(parents=True)
            self.folder.open_log(match.id).touch()

    def verdicts(self, rules, records):
        self.may_go_on.wait()
        self.verified.append([json.loads(record)["matchId"] for record in records])
        self.fails(self.verified[-1])
        return ["lawful"] * len(records)

    async def all_checked(self):
        """Checks all matches. The referee gets the first match before the other matches have ended."""
        calls = [asyncio.create_task(self.check(match)) for match in self.plan.matches]
        # Each match waits for its check after one step.
        await asyncio.sleep(0)
        self.may_go_on.set()
        return await asyncio.gather(*calls, return_exceptions=True)

    async def check(self, match):
        record = json.dumps(record_of(match, [["(take 2)", "noop"]], [["", ""]], [0, 100])).encode() + b"\n"
        account = f"0\topen {match.id} 0 10 10\topened\n".encode()
        return await self.checking.check(match, record + account, self.folder.open_log(match.id))


@pytest.fixture(autouse=True)
def any_account(monkeypatch):
    monkeypatch.setattr(checking, "fault_of_files", lambda record, account, rules: None)
    monkeypatch.setattr(checking, "description_of", lambda plan, game: (None, None))


def ids(played):
    return [match.id for match in played.plan.matches]


def test_matches_that_end_during_a_check_are_checked_together(tmp_path):
    played = Played(tmp_path)
    checked = asyncio.run(played.all_checked())
    first, *others = ids(played)
    assert played.verified == [[first], others]
    assert [found.result.match for found in checked] == played.plan.matches
    assert (sorted(file.stem for file in played.folder.records.iterdir()), list(played.folder.open.iterdir())) == (ids(played), [])
    assert (played.checking.waiting, played.checking.faults) == ({}, {})


def test_a_match_without_a_verdict_costs_no_other_match(tmp_path):
    def fails(matches):
        if played.plan.matches[2].id in matches:
            raise Unchecked("want of memory")

    played = Played(tmp_path, fails)
    checked = asyncio.run(played.all_checked())
    assert played.verified == [ids(played)[:1], ids(played)[1:], *([match] for match in ids(played)[1:])]
    assert [found.why is None for found in checked] == [match != played.plan.matches[2] for match in played.plan.matches]
    assert checked[2].why.endswith(f"it was played, but not checked, and is kept as {played.folder.record(ids(played)[2])}.unchecked: want of memory")


def test_an_error_of_this_computer_costs_one_match_and_the_others_are_checked_again(tmp_path):
    def fails(matches):
        if len(matches) > 1 and not played.has_failed:
            played.has_failed = True
            raise BlockingIOError("no process")

    played = Played(tmp_path, fails)
    played.has_failed = False
    checked = asyncio.run(played.all_checked())
    assert [isinstance(found, OSError) for found in checked] == [at == 1 for at in range(len(checked))]
    assert played.verified == [ids(played)[:1], ids(played)[1:], ids(played)[2:]]


def test_a_match_that_is_cancelled_costs_no_other_match(tmp_path):
    played = Played(tmp_path)

    async def go():
        calls = [asyncio.create_task(played.check(match)) for match in played.plan.matches]
        await asyncio.sleep(0)
        calls[0].cancel()
        await asyncio.sleep(0)
        calls[1].cancel()
        played.may_go_on.set()
        return await asyncio.gather(*calls, return_exceptions=True)

    checked = asyncio.run(go())
    assert [isinstance(found, asyncio.CancelledError) for found in checked] == [at < 2 for at in range(len(checked))]
    assert played.checking.waiting == {}
