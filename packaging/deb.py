"""The Debian package, by debhelper: what stands here are its files and the words of its templates."""

from __future__ import annotations

import os
import shutil
import subprocess
import tempfile
import time
from pathlib import Path
from typing import Mapping

from contents import File, Project, Unfit, filled, read
from sources import TOP

ARCHITECTURE = "amd64"
MODULES = "usr/lib/python3/dist-packages"
TEMPLATES = Path(TOP, "packaging", "debian")
COMMAND = "command"  # the template of what stands in usr/bin; the others are debhelper's
STATES = {
    True: "The program nl-bridge is proved.",
    False: "A build for trials: no gate has proved the program.",
}


def licence() -> tuple[str, str]:
    """The owner of the rights, and the text of the licence as Debian's format has it."""
    lines = read("LICENSE").decode().split("\n")
    owner = next(line for line in lines if line.startswith("Copyright"))
    rest = "\n".join(lines[lines.index(owner) + 1 :]).strip().split("\n")
    text = "\n".join(" " + line if line else " ." for line in rest)
    return owner.replace("Copyright (c) ", ""), text


def words_of(project: Project) -> Mapping[str, str]:
    """What stands for the marks of the templates in packaging/debian."""
    owner, text = licence()
    return {
        "maintainer": project.maintainer(),
        "version": project.version,
        "date": time.strftime("%a, %d %b %Y %H:%M:%S +0000", time.gmtime(project.epoch)),
        "description": project.description(),
        "state": STATES[project.proved],
        "owner": owner,
        "licence": text,
    }


def files(project: Project) -> list[File]:
    """What is installed, but for man pages, by path from the root."""
    inside = project.installed(
        MODULES, f"usr/libexec/{project.name}/bridge", "usr/share", "vendor-completions"
    )
    command = read("packaging", "debian", COMMAND)
    for name, entry in project.scripts.items():
        module, _, function = entry.partition(":")
        text = filled(command, {"module": module, "function": function})
        inside.append(File(f"usr/bin/{name}", text, 0o755))
    return inside


def write(folder: Path, found: list[File]) -> None:
    """Writes files below a folder, with their modes."""
    for file in found:
        path = folder / file.path
        path.parent.mkdir(parents=True, exist_ok=True)
        path.write_bytes(file.data)
        path.chmod(file.mode)


def stage(project: Project, tree: Path) -> None:
    """Makes the source tree that debhelper wants: debian/, root/ with the files, pages/ with man pages."""
    write(tree / "root", files(project))
    pages = list(project.pages())
    write(tree / "pages", pages)
    words = words_of(project)
    templates = [path for path in sorted(TEMPLATES.iterdir()) if path.name != COMMAND]
    found = [
        File(path.name, filled(path.read_bytes(), words), path.stat().st_mode & 0o777)
        for path in templates
    ]
    man = "usr/share/man/man1"
    lists = {
        "manpages": [f"pages/{page.path}" for page in pages],
        "links": [f"{man}/bridge-cbc.1 {man}/{page}" for page in project.linked_pages()],
    }
    for name, lines in lists.items():
        text = "".join(f"{line}\n" for line in lines)
        found.append(File(f"{project.name}.{name}", text.encode()))
    write(tree / "debian", found)


def build(project: Project, folder: str) -> str:
    """Builds the package by dpkg-buildpackage; its name.

    Raises:
        Unfit: debhelper is not there, or the build failed; the text has its last lines.
    """
    name = f"{project.name}_{project.version}_{ARCHITECTURE}.deb"
    os.umask(0o022)
    with tempfile.TemporaryDirectory(prefix="nl-bridge-deb-") as room:
        tree = Path(room, f"{project.name}-{project.version}")
        stage(project, tree)
        environment = {
            **os.environ,
            "SOURCE_DATE_EPOCH": str(project.epoch),
            "DPKG_DEB_THREADS_MAX": "1",
        }
        words = ["dpkg-buildpackage", "--build=binary", "--unsigned-source", "--unsigned-changes"]
        try:
            ran = subprocess.run(
                words, cwd=tree, capture_output=True, text=True, env=environment, check=False
            )
        except OSError as fault:
            raise Unfit(
                f"dpkg-buildpackage could not be run (apt install debhelper): {fault.strerror}"
            ) from None
        if ran.returncode:
            told = (ran.stdout + ran.stderr).strip().split("\n")[-8:]
            raise Unfit("dpkg-buildpackage: " + "\n".join(told))
        shutil.copyfile(Path(room, name), Path(folder, name))
    return name
