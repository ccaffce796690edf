"""Scripts of dev/: steps with their forecasts, and the version that several texts say."""

from __future__ import annotations

import sys
from pathlib import Path

import pytest

DEV = Path(__file__).resolve().parents[3] / "dev"
sys.path.append(str(DEV))

import steps  # noqa: E402
import versions  # noqa: E402


@pytest.fixture
def runner(tmp_path: Path) -> steps.StepRunner:
    """A runner that keeps what it learns in the folder of the test."""
    return steps.StepRunner([], tmp_path / "kept" / "seconds.json")


def test_a_step_gives_its_output_and_status(
    runner: steps.StepRunner, capsys: pytest.CaptureFixture[str]
) -> None:
    """A step that fails is told as failed, and what it needed is not kept."""
    step = steps.Step("it fails", ("sh", "-c", "echo told; exit 3"), needs=5)
    runner.steps.append(step)
    ended = runner.run(step)
    assert (ended.returncode, ended.stdout) == (3, "told\n")
    assert "1 of 1: it fails: failed after" in capsys.readouterr().err
    assert not runner.kept.exists()


def test_what_a_step_needed_is_the_next_forecast(
    runner: steps.StepRunner, monkeypatch: pytest.MonkeyPatch
) -> None:
    """It is kept in the file, and read from there by the next run."""
    monkeypatch.setattr(steps, "LOOKS_EVERY", 0.05)
    busy = "import time\nend = time.process_time() + 0.5\nwhile time.process_time() < end: pass"
    step = steps.Step("it is busy", (sys.executable, "-c", busy), needs=99)
    runner.steps.append(step)
    assert runner.run(step).returncode == 0
    assert 0 < steps.StepRunner([step], runner.kept).needs(step) < 99


@pytest.mark.parametrize("text", ["", "[]", "{", '{"a": 0}'])
def test_a_damaged_file_of_seconds_counts_as_none(tmp_path: Path, text: str) -> None:
    """The forecast is that of a usual machine then."""
    kept = tmp_path / "seconds.json"
    kept.write_text(text)
    step = steps.Step("a", ("true",), needs=7)
    assert steps.StepRunner([step], kept).needs(step) == 7


@pytest.mark.parametrize(
    "had, seconds, told",
    [
        (0.0, 10.0, "10 s"),
        (1.0, 2.0, "2 s"),
        (25.0, 50.0, "50 s, about 2 minutes more"),
        (99.0, 99.0, "99 s, about 1 s more"),
        (120.0, 99.0, "99 s, longer than expected"),
    ],
)
def test_progress(runner: steps.StepRunner, had: float, seconds: float, told: str) -> None:
    """What is left takes as long as the share of a processor so far makes it."""
    assert runner.progress(steps.Step("a", ("true",), needs=100), had, seconds) == told


def write_texts(folder: Path, sources: str, cited: str, package: str, heading: str) -> None:
    """The texts that say the version, each the one that is given."""
    place = folder / "drivers" / "bridge_drivers" / "system" / "version.py"
    place.parent.mkdir(parents=True)
    place.write_text(f'VERSION = "{sources}"\n')
    (folder / "CITATION.cff").write_text(f"cff-version: 1.2.0\nversion: {cited}\n")
    (folder / "README.md").write_text(f"apt install ./nl-bridge_{package}_amd64.deb\n")
    (folder / "CHANGELOG.md").write_text(
        f"# Changes\n\n## {heading}\n\n- one\n\n## 0.0.9, 2020-01-01\n"
    )


@pytest.mark.parametrize(
    "cited, package, heading, wrong",
    [
        ("1.2.3", "1.2.3", "1.2.3, 2026-12-01", []),
        ("1.2.3", "1.2.3", "Not released yet (1.2.3)", []),
        ("1.2.2", "1.2.3", "1.2.3, 2026-12-01", ["CITATION.cff"]),
        ("1.2.3", "1.3.3", "1.2.3, 2026-12-01", ["README.md"]),
        ("1.2.3", "1.2.3", "1.2.4, 2026-12-01", ["CHANGELOG.md"]),
        ("1.2.3", "1.2.3", "1.2.3, some day", ["CHANGELOG.md"]),
    ],
)
def test_texts_that_say_another_version(
    tmp_path: Path,
    monkeypatch: pytest.MonkeyPatch,
    cited: str,
    package: str,
    heading: str,
    wrong: list[str],
) -> None:
    """Each is named, and none that agrees."""
    write_texts(tmp_path, "1.2.3", cited, package, heading)
    monkeypatch.setattr(versions, "TOP", tmp_path)
    place = tmp_path / "drivers" / "bridge_drivers" / "system" / "version.py"
    monkeypatch.setattr(versions, "PLACE", place)
    found = list(versions.disagreements())
    assert [line.replace(":", " ").split()[0] for line in found] == wrong


def test_the_changes_of_a_version_end_at_the_next(
    tmp_path: Path, monkeypatch: pytest.MonkeyPatch
) -> None:
    """The section of a version is given without its heading."""
    write_texts(tmp_path, "1.2.3", "1.2.3", "1.2.3", "1.2.3, 2026-12-01")
    monkeypatch.setattr(versions, "TOP", tmp_path)
    assert versions.changes("1.2.3") == ("1.2.3, 2026-12-01", "- one")
