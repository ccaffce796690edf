"""Programs that are not there or fail, streams that are closed, time limits."""

from __future__ import annotations


import pytest

from builders.small_models import MODELS
from running.workspace import Call, SolContent, Workspace

FAULTS = [
    Call(
        "nl-bridge export /nonexistent/m.nl",
        4,
        environment={"BRIDGE": "FOLDER/faulty"},
        output="nl-bridge: /nonexistent/m.nl: input fault (No such file or directory)\n",
    ),
    Call(
        "nl-bridge verify FOLDER/p m.nl",
        4,
        environment={"BRIDGE": "FOLDER/faulty"},
        output="nl-bridge: FOLDER/p: input fault (No such file or directory); "
        "FOLDER/p.mps is an MPS file: `bridge-certify FOLDER/p.mps` and "
        "the drivers take it, `nl-bridge import FOLDER/p.mps FOLDER/p.nl` "
        "makes FOLDER/p.nl of it\n",
    ),
    Call(
        "nl-bridge verify m.nl FOLDER",
        4,
        environment={"BRIDGE": "FOLDER/faulty"},
        output="nl-bridge: FOLDER: input fault (Is a directory)\n",
    ),
    Call(
        "nl-bridge export",
        3,
        environment={"BRIDGE": "FOLDER/faulty"},
        output="nl-bridge: bad words: export takes FILE [K] or FILE K ROWS COLS; "
        "-h lists the commands\n",
    ),
    Call(
        "nl-bridge export m.nl one",
        3,
        environment={"BRIDGE": "FOLDER/faulty"},
        output="nl-bridge: bad words: K is a plain number up to 4294967295, not "
        "one; -h lists the commands\n",
    ),
]


@pytest.mark.parametrize("call", FAULTS, ids=str)
def test_faults(workspace: Workspace, call: Call) -> None:
    """Calls over a program that refuses what is no number or not there."""
    workspace.write(
        "faulty",
        "#!/bin/sh\nfor w in \"$@\"; do case $w in one|*:*) echo 'bad words' "
        ">&2; exit 3;; esac; done\n[ $# = 1 ] && { echo 'bad words' >&2; "
        "exit 3; }\necho 'input fault' >&2; exit 4\n",
    )
    workspace.write("m.nl", "x")
    workspace.write("p.mps", "NAME\nROWS\n")
    workspace.check(call)


@pytest.mark.parametrize(
    ("driver", "package"),
    [
        ("cbc", "coinor-cbc"),
        ("clp", "coinor-clp"),
        ("esolver", "qsopt-ex"),
        ("glpsol", "glpk-utils"),
        ("lp_solve", "lp-solve"),
    ],
)
def test_missing_solver(workspace: Workspace, driver: str, package: str) -> None:
    """The package of Debian that has it is named."""
    workspace.write_model("knap")
    workspace.script("bridge", "exit 3")
    workspace.check(
        Call(
            f"bridge-{driver} m",
            127,
            environment={"PATH": "/nonexistent", "BRIDGE": "FOLDER/bridge"},
            output=f"bridge-{driver}: {driver} was not found: apt install {package} (Debian) or "
            "give solver=PATH\n",
        )
    )


@pytest.mark.needs("program")
@pytest.mark.parametrize(
    "script", ["echo out of paper >&2; exit 7", "kill -9 $$"], ids=["fails", "is-killed"]
)
def test_solver_that_fails(workspace: Workspace, script: str) -> None:
    """There is no answer."""
    workspace.write_model("knap")
    workspace.script("cbc", script)
    workspace.check(
        Call(
            "bridge-cbc m -AMPL solver=FOLDER/cbc",
            prints=["CBC gave no usable answer"],
            sol=SolContent(code=506),
        )
    )


NAMED_PROGRAMS = [
    Call(
        "bridge-cbc m -AMPL solver=/nonexistent/cbc",
        prints=["/nonexistent/cbc was not found: install it or give solver=PATH"],
        sol=SolContent(code=503),
    ),
    Call(
        "bridge-cbc m -AMPL solver=/bin/true bridge=/nonexistent/b",
        prints=["could not be run"],
        sol=SolContent(code=503),
    ),
]


@pytest.mark.needs("program")
@pytest.mark.parametrize("call", NAMED_PROGRAMS, ids=str)
def test_missing_program_that_is_named(workspace: Workspace, call: Call) -> None:
    """The solver, or the proved program."""
    workspace.write_model("knap")
    workspace.check(call)


def test_passed(workspace: Workspace) -> None:
    """Words, status, signals and texts are the program's own.

    For a path that is not UTF-8 it gets a link.
    """
    workspace.write("bridge program", "#!/bin/sh\nprintf '%s.' \"$@\"; echo told >&2; exit 6\n")
    workspace.check(
        Call(
            "nl-bridge export 'a b.nl' 0",
            6,
            environment={"BRIDGE": "'FOLDER/bridge program'"},
            output="export.a b.nl.0.told\n",
        )
    )
    workspace.write("killed", "#!/bin/sh\nkill -PIPE $$\nexit 9\n")
    workspace.check(Call("nl-bridge make 1 1", -13, environment={"BRIDGE": "FOLDER/killed"}))
    workspace.write("shown", '#!/bin/sh\ncat "$2"\n')
    workspace.check(
        Call(
            'f=$(printf "\\377"); printf x >$f; nl-bridge mps $PWD/$f',
            environment={"BRIDGE": "FOLDER/shown"},
            is_shell=True,
            output="x",
        )
    )


STREAMS = [
    Call(
        "nl-bridge -= >/dev/full",
        5,
        is_shell=True,
        output="nl-bridge: standard output: No space left on device\n",
    ),
    Call(
        "bridge-cbc -= >/dev/full",
        5,
        is_shell=True,
        output="bridge-cbc: standard output: No space left on device\n",
    ),
    Call(
        "set -o pipefail; { while [ ! -e closed ]; do sleep 0.05; done; bridge-cbc -=; } | "
        "{ exec <&-; touch closed; }",
        5,
        is_shell=True,
        output="",
    ),
    Call(
        "bridge-cbc -= >&-",
        5,
        is_shell=True,
        output="bridge-cbc: standard output: Bad file descriptor\n",
    ),
    Call("bridge-cbc /nonexistent/m >&-", 4, is_shell=True),
    Call("bridge-cbc -= <&- 2>&1 >/dev/null", is_shell=True, output=""),
    Call("bridge-cbc /nonexistent/m 2>&-", 4, is_shell=True, output=""),
    Call(
        'bridge-cbc "$(printf "\\033[2Jm")"',
        4,
        is_shell=True,
        prints=["bridge-cbc: \\x1b[2Jm.nl: "],
    ),
    Call(
        'bridge-cbc "$(printf "\\2332Jm")"', 4, is_shell=True, prints=["bridge-cbc: \\x9b2Jm.nl: "]
    ),
]


@pytest.mark.parametrize("call", STREAMS, ids=str)
def test_streams(workspace: Workspace, call: Call) -> None:
    """Full disks, broken pipes, and streams that are closed.

    An output that is wanted is told of, no other file takes its place, and what is told on the
    other one is lost.
    """
    workspace.check(call)


BYTES = [
    Call(
        'set -o pipefail; d=$(printf "\\377"); mkdir $d; cp m.nl $d/m.nl; '
        'bridge-cbc $PWD/$d/m solver=/bin/true 2>&1|LC_ALL=C tr "\\377" "?"',
        2,
        is_shell=True,
        ends_with="/?/m.nl line 12: constraint 0: (x0 * x1) is nonlinear\n",
    ),
]


@pytest.mark.needs("program")
@pytest.mark.parametrize("call", BYTES, ids=str)
def test_bytes(workspace: Workspace, call: Call) -> None:
    """Messages show a path's own bytes."""
    workspace.write("m.nl", MODELS["nonlinear"].text)
    workspace.check(call)


@pytest.mark.needs("program")
def test_time_limit(workspace: Workspace) -> None:
    """It ends what the solver started, too, which holds its output open."""
    workspace.write_model("knap")
    workspace.script("cbc", "sleep 1000 & sleep 1000")
    workspace.check(
        Call(
            "timeout 250 bridge-cbc m -AMPL timelim=0.1 solver=$PWD/cbc",
            is_shell=True,
            sol=SolContent(code=450, matches=["^.*stopped at the time limit"]),
        )
    )


@pytest.mark.needs("program")
def test_interrupt_in_the_background(workspace: Workspace) -> None:
    """One that is ignored from the start, as of a run in the background, stays so."""
    workspace.write_model("knap")
    workspace.script(
        "cbc",
        f"cd '{workspace.folder}'; touch started\n"
        "while [ ! -e interrupted ]; do sleep 0.05; done; echo Bad image; exit 1",
    )
    workspace.check(
        Call(
            "bridge-cbc m -AMPL -e solver=$PWD/cbc & while [ ! -e started ]; do sleep 0.05; done; "
            "kill -INT $!; touch interrupted; wait $!",
            is_shell=True,
            sol=SolContent(code=506),
        )
    )


@pytest.mark.needs("program", "cbc", "prlimit")
def test_files_that_may_not_grow(workspace: Workspace) -> None:
    """The fault has the name of its file."""
    workspace.write_model("product")
    workspace.check(
        Call(
            'trap "" XFSZ; prlimit --fsize=64 bridge-certify m',
            5,
            is_shell=True,
            matches=[r"/\S+( could not be run or written)?: File too large"],
            lacks=["None"],
        )
    )
