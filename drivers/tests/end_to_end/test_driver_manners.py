"""What callers of AMPL drivers count on."""

from __future__ import annotations

import dataclasses

import pytest

from builders.small_models import MODELS
from running.workspace import VERSION, Call, SolContent, Workspace


WRITTEN = [
    Call(
        "bridge-cbc m.nl",
        stored="knap",
        prints=["optimal solution; objective 17\nbridge check", "l 17\n"],
        files={"m.sol": False},
    ),
    Call("bridge-cbc m -s", stored="knap", sol=SolContent(code=0)),
]


@pytest.mark.needs("program")
@pytest.mark.parametrize("call", WRITTEN, ids=str)
def test_written(workspace: Workspace, call: Call) -> None:
    """Without -AMPL or -s no .sol is written."""
    workspace.write_model(call.stored)
    workspace.check(call)


VALUES_AS_JSON = (
    '{\n "values": {\n  "desk": "2",\n  "chair": "4"\n },\n'
    ' "duals": {\n  "c0": "1",\n  "c1": "0"\n }\n}\n'
)


@pytest.mark.needs("program")
@pytest.mark.parametrize(
    ("name", "content"),
    [("m.values", "desk 2\nchair 4\n\nduals\nc0 1\nc1 0\n"), ("m.json", VALUES_AS_JSON)],
)
def test_solution_in_a_file(workspace: Workspace, name: str, content: str) -> None:
    """Names and values, as JSON by the file's end; what stands there stays."""
    workspace.write_model("product")
    workspace.write("m.col", "desk\nchair\n")
    words = f"bridge-cbc m -e solution={name}"
    workspace.check(
        Call(words, stored="product", prints=[f"{name} is written\n"], files={name: content})
    )
    workspace.write(name, "letters")
    told = ["it stands there"]
    workspace.check(Call(words, 5, stored="product", prints=told, files={name: "letters"}))


SHOWN = [
    Call(
        "bridge-cbc m -e wantsol=7",
        ends_with="optimal 19\nvalues\n  x0 2\n  x1 4\nduals\n  c0 1\n  c1 0\n",
    ),
    Call("bridge-cbc m -e", ends_with="optimal 19\nvalues\n  x0 2\n  x1 4\n"),
    Call("bridge-cbc m -e wantsol=2", ends_with="optimal 19\nvalues\n  x0 2\n  x1 4\n"),
    Call("bridge-cbc m -e wantsol=0", ends_with="optimal 19\n"),
    Call("bridge-cbc m -e -s", ends_with="optimal 19\n"),
    Call("bridge-cbc m -e -AMPL", lacks=["x0 2"]),
    Call("bridge-cbc m -e wantsol=8", lacks=["optimal", "x0"]),
]


@pytest.mark.needs("program")
@pytest.mark.parametrize("call", SHOWN, ids=str)
def test_values_that_are_shown(workspace: Workspace, call: Call) -> None:
    """A screen of them where the command is called by hand; all or none where that is said."""
    workspace.write_model("product")
    workspace.check(dataclasses.replace(call, stored="product"))


ENVIRONMENT = [
    Call(
        "bridge-cbc m -AMPL objno=2",
        environment={"bridge_cbc_options": "objno 7 check = 0"},
        stored="second",
        prints=[f"bridge-cbc {VERSION}: objno=7 check=0 objno=2\n"],
        sol=SolContent(code=0, contains=["\n7\nobjno 1 0\n", "\nnot proved: check=0\n\n"]),
    ),
    Call(
        "bridge-cbc m -AMPL objno=2",
        environment={"bridge-cbc_options": "objno 7 check = 0"},
        stored="second",
        prints=[f"bridge-cbc {VERSION}: objno=7 check=0 objno=2\n"],
        sol=SolContent(code=0, contains=["\n7\nobjno 1 0\n", "\nnot proved: check=0\n\n"]),
    ),
]


@pytest.mark.needs("program")
@pytest.mark.parametrize("call", ENVIRONMENT, ids=str)
def test_environment(workspace: Workspace, call: Call) -> None:
    """Options of the environment, by either name."""
    workspace.write("m.nl", MODELS["second"].text)
    workspace.check(call)


@pytest.mark.needs("program")
@pytest.mark.parametrize("driver", ("cbc", "clp", "esolver", "glpsol", "highs", "lp_solve"))
def test_version(workspace: Workspace, driver: str) -> None:
    """The version and the usage of each driver."""
    workspace.check(
        Call(f"bridge-{driver} -v", stored="x", prints=[f"bridge-{driver} {VERSION} ("])
    )
    workspace.check(Call(f"bridge-{driver}", 3, stored="x", prints=[f"bridge_{driver}_options"]))


@pytest.mark.needs("program")
def test_kept(workspace: Workspace) -> None:
    """What is kept, and how long it took."""
    workspace.write("m.nl", MODELS["knap"].text)
    workspace.check(
        Call(
            "bridge-cbc m -AMPL outlev=2 keep=FOLDER/kept",
            stored="knap",
            prints=[" export ", "seconds: export", "driver's own processor time"],
            files={
                "kept/model.mps": True,
                "kept/coin.mps": True,
                "kept/bridge.txt": True,
                "kept/answer.bin": True,
            },
        )
    )
    assert workspace.read("kept/bridge.sol") == workspace.read("m.sol")
    assert workspace.read("kept/text.nl") == workspace.read("m.nl")
