"""The system packages that the tests need, and the messages if they are missing."""
import contextlib
import os
import pathlib
from collections.abc import Iterator
from unittest import mock

import packages
import pytest
from packages import NEEDS, Need, install, install_missing, lack_of_rights, missing, no_services, searched

GONE = Need("nothing", ("no-such-command", "sh"), "nothing is done")
SHELL = Need("dash", ("sh",), "shells")


@pytest.fixture
def can_install() -> Iterator[None]:
    with mock.patch("packages.can_install", lambda: True):
        yield


def test_what_is_there_or_optional_is_not_missing() -> None:
    assert missing([SHELL, Need("nothing", GONE.commands, "", is_optional=True)]) == []
    assert missing([GONE]) == [GONE] and GONE.lacks() == ["no-such-command"]
    assert {"gringo", "python3-pytest", "chromium"} <= {need.package for need in NEEDS if not need.is_optional}


def test_the_directories_of_the_systems_commands_are_searched() -> None:
    with mock.patch.dict("os.environ", {"PATH": "/usr/bin:/sbin"}):
        assert searched() == "/usr/bin:/sbin:/usr/sbin"


def test_without_root_the_command_to_type_is_printed() -> None:
    with mock.patch("packages.can_install", lambda: False):
        error = install_missing([GONE])
    assert error == "missing: no-such-command (nothing is done). In Debian, type: sudo apt-get install --yes --no-install-recommends nothing"


def test_as_root_what_is_missing_is_installed(can_install: None, capsys: pytest.CaptureFixture) -> None:
    with mock.patch("packages.install", lambda names: names == ["nothing"]):
        assert install_missing([GONE]) == "missing although their packages are installed: no-such-command (nothing is done)"
    with mock.patch("packages.install", lambda names: False):
        assert install_missing([GONE]) == "apt-get cannot install nothing; its messages are above"
    assert capsys.readouterr().out.count("needs: installing nothing, ") == 2
    with mock.patch("packages.install", side_effect=AssertionError):
        assert install_missing([SHELL]) is None


@pytest.mark.parametrize(("errors", "commands", "is_well"), [([""], 1, True), (["none", "", ""], 3, True), (["none", "", "none"], 3, False), (["none", "no net"], 2, False)])
def test_after_a_failure_new_lists_are_downloaded(errors: list[str], commands: int, is_well: bool) -> None:
    ran, answers = [], iter(errors)
    with mock.patch.object(packages, "error_of", lambda command: ran.append(command[1]) or next(answers)), mock.patch.object(packages, "no_services", contextlib.nullcontext):
        assert install(["nothing"]) == is_well
    assert ran == ["install", "update", "install"][:commands]


def test_no_service_is_started_and_a_policy_stays(tmp_path: pathlib.Path) -> None:
    policy = tmp_path / "policy-rc.d"
    with no_services(str(policy)):
        assert os.access(policy, os.X_OK)
    assert not policy.exists()
    policy.write_text("exit 0\n")
    with no_services(str(policy)):
        pass
    assert policy.read_text() == "exit 0\n"


def test_a_user_other_than_root_reads_what_to_type() -> None:
    with mock.patch("os.geteuid", lambda: 1000):
        assert 'sudo env "PATH=$PATH" make gate' in lack_of_rights()
