"""drivers/install: into a folder, and away again."""

from __future__ import annotations

import json
import os

import pytest

from running.places import DRIVERS
from running.workspace import Call, Workspace

HOME = {"HOME": "FOLDER"}
OTHER_HOME = {"HOME": "FOLDER/home"}  # the prefix is not below it


def test_below_the_home_folder(workspace: Workspace) -> None:
    """What it writes can be removed, and what is another's stays."""
    workspace.write(".local/bin/bridge-other", "own")
    workspace.check(
        Call(
            "drivers/install FOLDER/.local",
            environment=HOME,
            lacks=["MZN_SOLVER_PATH"],
            files={
                ".local/share/bash-completion/completions/bridge-certify": True,
                ".local/share/fish/vendor_completions.d/bridge-cbc.fish": True,
                ".local/share/zsh/site-functions/_nl-bridge": True,
            },
            contains={".minizinc/solvers/bridge-cbc.msc": ['"FOLDER/.local/bin/bridge-cbc"']},
        )
    )
    workspace.check(Call("drivers/install FOLDER/.local --remove", environment=HOME))
    workspace.check(Call("drivers/install FOLDER/.local --remove", 1, environment=HOME))
    assert workspace.names() == {".local", ".local/bin", ".local/bin/bridge-other"}


@pytest.mark.needs("program")
def test_another_program(workspace: Workspace) -> None:
    """It is taken into the folder, and configurations name what can be run; also again."""
    workspace.script("bridge", "echo bad words >&2; exit 3")
    workspace.write_model("knap")
    install = "drivers/install 'FOLDER/a prefix'"
    workspace.check(Call(f"{install} --bridge FOLDER/bridge", environment=HOME))
    workspace.check(Call(install, environment=HOME))
    prefix = workspace.path("a prefix")
    folder = prefix / "share" / "minizinc" / "solvers"
    assert sorted(os.listdir(folder)) == sorted(os.listdir(DRIVERS / "minizinc"))
    for path in folder.iterdir():
        command, *words = json.loads(path.read_text())["executable"]
        assert os.access(command, os.X_OK), command
        assert words == ["failexit=1", "shortest=1"]
    driver = str(prefix / "bin" / "bridge-cbc")
    words = ["m", "-AMPL", "solver=/bin/true", "outlev=2"]
    ended = workspace.run(driver, *words, environment={"BRIDGE": ""})
    taken = prefix / "lib" / "bridge-drivers" / "bin" / "bridge"
    assert str(taken) in ended.out.replace("'", "")


PROVED = "echo bad words >&2; exit 3"  # what the proved program does without words


def test_what_is_no_bridge_is_refused(workspace: Workspace) -> None:
    """Nothing is installed then."""
    workspace.script("other", "exit 0")
    workspace.check(
        Call(
            "drivers/install FOLDER/prefix --bridge FOLDER/other",
            1,
            environment=OTHER_HOME,
            prints=["not the program `bridge` of this project"],
            files={"prefix": False},
        )
    )


def test_all_can_read_what_is_installed(workspace: Workspace) -> None:
    """Also where new files of the user are private: the folders can be entered, the files read."""
    workspace.script("bridge", PROVED)
    install = f"umask 077; '{DRIVERS / 'install'}' FOLDER/prefix --bridge FOLDER/bridge"
    workspace.check(Call(install, environment=OTHER_HOME, is_shell=True))
    modes = {path: path.stat().st_mode for path in workspace.path("prefix").rglob("*")}
    assert modes
    private = [path for path, mode in modes.items() if mode & 0o044 != 0o044]
    closed = [path for path, mode in modes.items() if path.is_dir() and mode & 0o011 != 0o011]
    assert not private and not closed


@pytest.mark.parametrize("linked", ["lib", "bin", "share"])
def test_folders_that_are_links(workspace: Workspace, linked: str) -> None:
    """The commands run, and after removing the link and its empty folder are still there."""
    workspace.script("bridge", PROVED)
    prefix = workspace.path("prefix")
    (workspace.path("elsewhere") / linked).mkdir(parents=True)
    prefix.mkdir()
    (prefix / linked).symlink_to(workspace.path("elsewhere") / linked)
    install = "drivers/install FOLDER/prefix"
    workspace.check(Call(f"{install} --bridge FOLDER/bridge", environment=OTHER_HOME))
    ended = workspace.run(str(prefix / "bin" / "nl-bridge"), "version")
    assert ended.status == 0, ended.text
    workspace.check(Call(f"{install} --remove", environment=OTHER_HOME))
    assert [path.name for path in prefix.iterdir()] == [linked]
    assert not list((workspace.path("elsewhere") / linked).iterdir())


def test_pages_examples_and_what_is_left_to_do(workspace: Workspace) -> None:
    """Each command has a man page; what is said to be left is what this prefix lacks."""
    workspace.script("bridge", PROVED)
    install = "drivers/install FOLDER/prefix --bridge FOLDER/bridge"
    package = "FOLDER/prefix/lib/bridge-drivers"
    workspace.check(
        Call(
            install,
            environment=OTHER_HOME,
            prints=[f"PYTHONPATH={package}", "MZN_SOLVER_PATH=FOLDER/prefix/share"],
            files={"prefix/share/nl-bridge/examples/knap.nl": True},
        )
    )
    pages = workspace.path("prefix") / "share" / "man" / "man1"
    commands = {path.name for path in (DRIVERS / "bin").iterdir()}
    assert {path.stem for path in pages.iterdir()} == commands
    assert "AMPL drivers around" in (pages / "bridge-cbc.1").read_text()
    workspace.check(
        Call(install, environment={**OTHER_HOME, "PYTHONPATH": package}, lacks=["PYTHONPATH="])
    )
