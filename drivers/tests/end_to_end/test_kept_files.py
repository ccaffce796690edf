"""Nothing of the user's is lost: what stands at a place where a command writes stays."""

from __future__ import annotations

import os

import pytest

from builders.mps_models import MPS_MODELS
from builders.small_models import MODELS
from running.places import SOLVERS
from running.stored_runs import stored_runs
from running.workspace import Call, SolContent, Workspace


@pytest.mark.needs("program")
@pytest.mark.parametrize("driver", ("cbc", "clp", "esolver", "glpsol", "highs", "lp_solve"))
def test_only(workspace: Workspace, driver: str) -> None:
    """The same text again is no loss."""
    workspace.write("m.nl", MODELS["product"].text)
    workspace.write(f"m.{driver}.mps", "letters\n")
    workspace.check(
        Call(
            f"bridge-{driver} m only=mps",
            5,
            stored="product",
            prints=[f"m.{driver}.mps: it stands there"],
            files={f"m.{driver}.mps": "letters\n"},
        )
    )
    workspace.check(
        Call(f"bridge-{driver} m only=mps overwrite=1", stored="product", lacks=["it stands there"])
    )
    workspace.check(
        Call(f"bridge-{driver} m only=mps", stored="product", lacks=["it stands there"])
    )
    workspace.check(
        Call(f"bridge-{driver} m only=mps -AMPL", stored="product", sol=SolContent(code=450))
    )


@pytest.mark.needs("program")
@pytest.mark.parametrize("driver", ("clp", "esolver"))
def test_relaxed(workspace: Workspace, driver: str) -> None:
    """What a solver would relax without a word is not written for it."""
    workspace.write("m.nl", MODELS["knap"].text)
    workspace.check(
        Call(f"bridge-{driver} m only=mps", 2, stored="knap", files={f"m.{driver}.mps": False})
    )
    workspace.check(
        Call(f"bridge-{driver} m only=mps relax=1", stored="knap", files={f"m.{driver}.mps": True})
    )


@pytest.mark.needs("program")
def test_older_answer(workspace: Workspace) -> None:
    """An older .sol stays where the model is missing."""
    workspace.write("m.sol", "letters\n")
    workspace.check(Call("bridge-cbc m -AMPL", 4, stored="knap", files={"m.sol": "letters\n"}))
    workspace.check(
        Call("bridge-cbc m -AMPL speed=9", 3, stored="knap", files={"m.sol": "letters\n"})
    )
    workspace.write("m.nl", MODELS["knap"].text)


LINKED_ANSWER = [
    Call(
        "bridge-cbc m -AMPL",
        5,
        stored="knap",
        prints=["m.sol: it is what this command reads"],
        files={"m.nl": MODELS["knap"].text},
    ),
]


@pytest.mark.needs("program")
@pytest.mark.parametrize("call", LINKED_ANSWER, ids=str)
def test_linked_answer(workspace: Workspace, call: Call) -> None:
    """An older .sol stays where it is the model itself."""
    workspace.write("m.nl", MODELS["knap"].text)
    os.link(workspace.path("m.nl"), workspace.path("m.sol"))
    workspace.check(call)


@pytest.mark.needs("program")
def test_pages(workspace: Workspace) -> None:
    """Pages and pictures."""
    workspace.write("m.nl", MODELS["product"].text)
    workspace.write("m.certificate", "certificate 1\nfeasible 0\npoint 0\n")
    workspace.write("m.page", "letters\n")
    workspace.check(
        Call(
            "nl-bridge explain m m.certificate --html m.page",
            5,
            prints=["is not written: it stands there"],
            files={"m.page": "letters\n"},
        )
    )
    workspace.check(
        Call(
            "nl-bridge explain m m.certificate --html m.page overwrite=1",
            1,
            prints=["m.page is written"],
        )
    )
    workspace.write("m.page", "letters\n")
    workspace.check(
        Call(
            "nl-bridge explain m m.certificate --svg m.page",
            5,
            prints=["is not written: it stands there"],
            files={"m.page": "letters\n"},
        )
    )
    workspace.check(
        Call(
            "nl-bridge explain m m.certificate --svg m.page overwrite=1",
            1,
            prints=["m.page is written"],
        )
    )


@pytest.mark.needs("program")
@pytest.mark.parametrize("kind", ["nl", "row", "col"])
def test_import_onto_a_file(workspace: Workspace, kind: str) -> None:
    """Where one of its three files stands there, none is written, unless that is asked for."""
    files = {"new.nl", "new.row", "new.col"}
    older = f"new.{kind}"
    workspace.write("m.mps", MPS_MODELS["free_form"].text)
    workspace.write(older, "letters\n")
    workspace.check(
        Call(
            "nl-bridge import m.mps FOLDER/new.nl",
            5,
            prints=[f"FOLDER/{older}: it stands there"],
            files={name: "letters\n" if name == older else False for name in files},
        )
    )
    workspace.check(
        Call(
            "nl-bridge overwrite=1 import m.mps FOLDER/new",
            prints=["is written"],
            files={name: True for name in files},
        )
    )


@pytest.mark.needs("program")
@pytest.mark.parametrize("more", ["", " overwrite=1"], ids=["", "overwrite"])
def test_import_onto_itself(workspace: Workspace, more: str) -> None:
    """What a command reads is never replaced."""
    text = MPS_MODELS["free_form"].text
    workspace.write("m.nl", text)
    workspace.check(
        Call(
            f"nl-bridge import m.nl m{more}",
            5,
            prints=["it is what this command reads"],
            files={"m.nl": text, "m.row": False},
        )
    )


@pytest.mark.needs("program", "cbc")
def test_failures(workspace: Workspace) -> None:
    """Failures leave an older certificate."""
    workspace.write("m.certificate", "certificate 1\noptimal 0\npoint 0\nduals 0\n")
    workspace.write("m.nl", MODELS["nonlinear"].text)
    workspace.check(
        Call(
            "bridge-certify m",
            2,
            prints=["m.certificate stays as it was\n"],
            files={"m.certificate": "certificate 1\noptimal 0\npoint 0\nduals 0\n"},
        )
    )
    workspace.write("m.nl", MODELS["knap"].text)
    workspace.check(
        Call(
            "bridge-certify m bridge=/nonexistent/b",
            127,
            prints=["m.certificate stays as it was\n"],
            files={"m.certificate": "certificate 1\noptimal 0\npoint 0\nduals 0\n"},
        )
    )


FILES_OF_A_RUN = (
    "text.nl",
    "model.mps",
    "answer.txt",
    "bridge.sol",
    "solver.log",
    "certificate",
    "m.mps",
)


@pytest.mark.needs("program")
@pytest.mark.parametrize("driver", SOLVERS)
def test_kept_folder(workspace: Workspace, driver: str) -> None:
    """The folder of the model, too, with files of each name that a run writes: all stay."""
    workspace.write_model("product")
    for name in FILES_OF_A_RUN:
        workspace.write(name, "letters\n")
    before = {name: workspace.read(name) for name in (*FILES_OF_A_RUN, "m.nl")}
    run = stored_runs(driver)["product"]
    ended = workspace.replay(driver, run, "m", f"keep={workspace.folder}")
    assert ended.status == 0, ended.text
    assert {name: workspace.read(name) for name in before} == before
    own = workspace.path(f"bridge-{driver}-1")
    assert f"the files in between are in {own}\n" in ended.out
    assert (own / "bridge.sol").exists()
