"""The words and models that solvers are called with, and the bases that they answer."""

from __future__ import annotations


import pytest

from running.workspace import Call, SolContent, Workspace

WORDS = [
    Call(
        "bridge-cbc m -AMPL keep=FOLDER/kept", stored="product", solver_words="coin.mps -max -solve"
    ),
    Call(
        "bridge-clp m -AMPL keep=FOLDER/clp", stored="product", solver_words="coin.mps -max -solve"
    ),
    Call(
        "bridge-glpsol m -AMPL keep=FOLDER/glpsol",
        stored="product",
        solver_words="glpsol.mps --max -w",
    ),
    Call("bridge-glpsol m -AMPL keep=FOLDER/kept", stored="diet", solver_words="--min"),
    Call(
        "bridge-cbc m -AMPL mipgap=0.1 threads=2 'extra=-cuts off'",
        stored="product",
        solver_words="-ratio 0.1 -threads 2 -cuts off -solve",
    ),
    Call(
        "bridge-glpsol m -AMPL relax=1 xcheck=1",
        stored="product",
        solver_words="--nomip --xcheck",
    ),
]


@pytest.mark.needs("program")
@pytest.mark.parametrize("call", WORDS, ids=str)
def test_words(workspace: Workspace, call: Call) -> None:
    """Options make words."""
    workspace.write_model(call.stored)
    workspace.check(call)


MODELS_AS_THEY_ARE_READ = [
    Call(
        "bridge-lp_solve m -AMPL keep=FOLDER/kept",
        stored="product",
        contains={"kept/lp_solve.mps": ["\n RHS obj -5\n"]},
    ),
    Call(
        "bridge-glpsol m -AMPL keep=FOLDER/glpsol",
        stored="product",
        contains={"glpsol/glpsol.mps": ["\n RHS obj 5\n"]},
    ),
    Call(
        "bridge-cbc m -AMPL keep=FOLDER/cbc",
        stored="product",
        contains={"cbc/coin.mps": ["NAME nl FREE\nOBJSENSE\n MAX\n"]},
    ),
]


@pytest.mark.needs("program")
@pytest.mark.parametrize("call", MODELS_AS_THEY_ARE_READ, ids=str)
def test_models_as_they_are_read(workspace: Workspace, call: Call) -> None:
    """GLPK wants no OBJSENSE and adds the RHS of the objective row; COIN wants FREE."""
    workspace.write_model(call.stored)
    workspace.check(call)


@pytest.mark.needs("program")
def test_glpsol_gets_no_sense(workspace: Workspace) -> None:
    """OBJSENSE is an error to it: its option --max says it."""
    workspace.write_model("product")
    workspace.check(Call("bridge-glpsol m -AMPL keep=FOLDER/glpsol", stored="product"))
    assert b"OBJSENSE" not in workspace.read("glpsol/glpsol.mps")


@pytest.mark.needs("program")
@pytest.mark.parametrize("driver", ("cbc", "clp", "glpsol", "esolver"))
def test_basis(workspace: Workspace, driver: str) -> None:
    """Basic columns and rows as AMPL's statuses, the same from four solvers."""
    workspace.write_model("product")
    workspace.check(
        Call(
            f"bridge-{driver} m -AMPL",
            stored="product",
            sol=SolContent(
                contains=[
                    "\nsuffix 0 2 8 0 0\nsstatus\n0 1\n1 4\n",
                    "\nsuffix 1 2 8 0 0\nsstatus\n0 4\n1 1\n",
                ]
            ),
        )
    )
