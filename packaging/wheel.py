"""The wheel, by setuptools: what stands here are its files, and what its pyproject.toml has beside the clone's."""

from __future__ import annotations

import json
import os
import re
import subprocess
import sys
import tempfile
from collections.abc import Sequence
from pathlib import Path

from contents import PACKAGE, File, Project, Unfit, read

DATA = "data"  # the folder of what goes below the prefix of an environment
SHARE = f"{DATA}/share"
# pip removes a folder with all below it where a file of ours stands in it itself
SHARED = "What nl-bridge has in this folder goes by `pip uninstall nl-bridge`.\n"
BACKEND = "import sys, setuptools.build_meta as made; made.build_wheel(sys.argv[1])"


def tag(project: Project) -> str:
    """The platform that the program needs, by the version of its C library."""
    major, minor = project.glibc()
    return f"manylinux_{major}_{minor}_x86_64"


def files(project: Project) -> list[File]:
    """What is installed: the package by path from the root of the modules, all else below DATA."""
    inside = project.installed("", f"{PACKAGE}/bin/bridge", SHARE, "site-functions")
    pages = {f.path: f.data for f in project.pages()}
    pages.update({name: b".so man1/bridge-cbc.1\n" for name in project.linked_pages()})
    inside += [File(f"{SHARE}/man/man1/{name}", page) for name, page in sorted(pages.items())]
    inside.append(File(f"{SHARE}/{project.name}.txt", SHARED.encode()))
    return sorted(inside)


def table_of_data(inside: Sequence[File]) -> str:
    """The table of setuptools that says which file goes into which folder of the environment."""
    folders: dict[str, list[str]] = {}
    for file in inside:
        if file.path.startswith(f"{DATA}/"):
            folder = os.path.dirname(os.path.relpath(file.path, DATA))
            folders.setdefault(folder, []).append(file.path)
    lines = [f"{json.dumps(folder)} = {json.dumps(paths)}" for folder, paths in folders.items()]
    return "\n".join(["", "[tool.setuptools.data-files]", *lines, ""])


def project_table(project: Project, inside: Sequence[File]) -> str:
    """pyproject.toml of the clone, with the words of this build and the table of its data."""
    text = read("drivers", "pyproject.toml").decode()
    name, _, mail = project.maintainer().rstrip(">").partition(" <")
    for key, value in (("description", project.description()), ("name", name), ("email", mail)):
        head, mark, rest = text.partition("[[project.maintainers]]")
        is_own = key == "description"
        part = re.sub(
            rf"^{key} = .*$",
            lambda _: f"{key} = {json.dumps(value)}",
            head if is_own else rest,
            count=1,
            flags=re.MULTILINE,
        )
        text = part + mark + rest if is_own else head + mark + part
    return text + table_of_data(inside)


def stage(project: Project, tree: Path) -> None:
    """Makes the folder that setuptools builds from."""
    inside = files(project)
    settings = f"[bdist_wheel]\npython_tag = py3\nplat_name = {tag(project)}\n"
    texts = [
        File("pyproject.toml", project_table(project, inside).encode()),
        File("setup.cfg", settings.encode()),
        File("README.md", read("drivers", "README.md")),
        File("LICENSE", read("LICENSE")),
    ]
    for file in [*inside, *texts]:
        path = tree / file.path
        path.parent.mkdir(parents=True, exist_ok=True)
        path.write_bytes(file.data)
        path.chmod(file.mode)


def build(project: Project, folder: str) -> str:
    """Builds the wheel; its name.

    Raises:
        Unfit: setuptools and wheel are not there, or the build failed; the text has its last lines.
    """
    name = f"{project.name.replace('-', '_')}-{project.version}-py3-none-{tag(project)}.whl"
    with tempfile.TemporaryDirectory(prefix="nl-bridge-wheel-") as tree:
        stage(project, Path(tree))
        ran = subprocess.run(
            [sys.executable, "-c", BACKEND, os.path.abspath(folder)],
            cwd=tree,
            capture_output=True,
            text=True,
            env={**os.environ, "SOURCE_DATE_EPOCH": str(project.epoch)},
            check=False,
        )
    if ran.returncode:
        told = "\n".join(ran.stderr.strip().split("\n")[-5:])
        raise Unfit(f"setuptools (Debian: apt install python3-setuptools python3-wheel): {told}")
    return name
