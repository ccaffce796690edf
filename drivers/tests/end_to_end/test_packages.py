"""The Debian package and the wheel, built from this clone with a program for trials."""

from __future__ import annotations

import hashlib
import os
import re
import subprocess
import sys
import zipfile
from pathlib import Path
from typing import NamedTuple, Set

import pytest

from running.places import TOP, program
from running.workspace import Workspace

pytestmark = pytest.mark.needs("packages")


class Packages(NamedTuple):
    """What `packaging/build` makes."""

    folder: Path
    deb: Path
    wheel: Path


@pytest.fixture(scope="module")
def packages(tmp_path_factory: pytest.TempPathFactory) -> Packages:
    """Both packages, built once."""
    folder = tmp_path_factory.mktemp("packages")
    words = [str(TOP / "packaging" / "build"), str(folder), "--program", program()[0]]
    done = subprocess.run([sys.executable, *words], capture_output=True, text=True)
    assert done.returncode == 0, done.stderr
    deb, wheel = done.stdout.split()[:2]
    return Packages(folder, folder / deb, folder / wheel)


def paths_below(folder: Path) -> Set[str]:
    """All files and folders."""
    return {str(path.relative_to(folder)) for path in folder.rglob("*")}


def test_sums(packages: Packages) -> None:
    """They pass, and tell that of the program."""
    done = subprocess.run(
        ["sha256sum", "--quiet", "-c", "SHA256SUMS"], cwd=packages.folder, capture_output=True
    )
    assert (done.returncode, done.stdout, done.stderr) == (0, b"", b"")
    own = hashlib.sha256(Path(program()[0]).read_bytes()).hexdigest()
    sums = (packages.folder / "SHA256SUMS").read_text()
    assert sums.startswith(f"# {own}  bridge, the program in them\n")


@pytest.mark.parametrize(
    "pattern",
    [
        r"(?m)^Depends: .*\bcoinor-libclp1\b",
        "Description: UNPROVED bridge",
        "no gate has proved the program",
        r"(?m)^Recommends: .*\bcoinor-cbc\b",
        r"(?m)^Suggests: .*\bminizinc, python3-pulp\b",
    ],
)
def test_fields_of_the_deb(packages: Packages, pattern: str) -> None:
    """What it depends on, and that its program is not proved."""
    done = subprocess.run(["dpkg-deb", "-f", packages.deb], capture_output=True, text=True)
    assert re.search(pattern, done.stdout)
    assert "is proved" not in done.stdout


def test_fields_of_the_wheel(packages: Packages) -> None:
    """PuLP is an extra."""
    with zipfile.ZipFile(packages.wheel) as wheel:
        names = [name for name in wheel.namelist() if name.endswith(".dist-info/METADATA")]
        text = wheel.read(names[0]).decode()
    assert "\nProvides-Extra: pulp\n" in text
    assert re.search(r"^Requires-Dist: pulp ?; extra == 'pulp'$", text, re.MULTILINE)
    assert "\nSummary: UNPROVED bridge" in text


@pytest.mark.needs("lintian")
def test_lintian(packages: Packages) -> None:
    """It finds no error and warns of nothing."""
    words = ["lintian", "--allow-root", "--fail-on", "error,warning", str(packages.deb)]
    done = subprocess.run(words, capture_output=True, text=True)
    assert (done.returncode, done.stdout) == (0, "")


def test_uninstalled(packages: Packages, workspace: Workspace) -> None:
    """A virtual environment is as it was before, once commands have run there, too."""
    place = workspace.path("env")
    made = subprocess.run([sys.executable, "-m", "venv", "--system-site-packages", str(place)])
    if made.returncode:
        pytest.skip("no venv")
    before = paths_below(place)
    pip = [str(place / "bin" / "pip"), "-q", "--disable-pip-version-check"]
    install = ["install", "--no-index", "--no-deps", str(packages.wheel)]
    subprocess.run([*pip, *install], check=True)
    environment = {name: value for name, value in os.environ.items() if name != "BRIDGE"}
    done = subprocess.run(
        [str(place / "bin" / "nl-bridge"), "version"],
        env=environment,
        capture_output=True,
        text=True,
    )
    assert "NOT PROVED" in done.stdout
    subprocess.run([*pip, "uninstall", "-y", "nl-bridge"], check=True)
    assert paths_below(place) == before


@pytest.mark.skipif(sys.version_info < (3, 11), reason="packages are built by Python 3.11 or later")
def test_dead_links(monkeypatch: pytest.MonkeyPatch) -> None:
    """Links of documents to files that a package has not."""
    monkeypatch.syspath_prepend(str(TOP / "packaging"))
    from contents import File, dead_links

    documents = [
        File(
            "README.md",
            b"[a](docs/user/) [b](docs/user/x.md#part) [c](gone.md) [d](https://x.example/y)",
        ),
        File("docs/user/x.md", b"[up](../../README.md) [e](#here) [f](../gone.md)"),
    ]
    wanted = ["gone.md (README.md)", "../gone.md (docs/user/x.md)"]
    assert dead_links(documents) == wanted
