"""Fixtures for pytest: `tpm`, a caller of a fresh device; `tpm_saved`, a caller of a device that is
kept in an image; and `tpm_of`, which makes a caller of any device. Each device is started up. If a
test fails, its report contains the commands that the device received, as a script, and why the last
refused command was refused. With `--tpmsim-html FOLDER`, the page that explains the log of each
failed test is written to FOLDER. With `--tpm-coverage`, the summary of the run says which refusals
of the table the tests have met, as tpmsim-coverage does. A test with the mark `tpm_sweep` runs again
for each refusal that its commands could meet.
"""

import re
from pathlib import Path
from typing import Any, Callable, Generator, Iterator

import pytest

from tpmsim.caller import Caller
from tpmsim.coverage.devices import Counted
from tpmsim.coverage.met import Met
from tpmsim.coverage.report import table
from tpmsim.device import Device, Transport
from tpmsim.explain import page, text
from tpmsim.explain.of_device import log_of, why_refused
from tpmsim.explain.play import Play
from tpmsim.standard.rows import Kind
from tpmsim.sweep import in_tests
from tpmsim.sweep.in_tests import PART

DEVICES = pytest.StashKey[list[Transport]]()
COVERAGE = pytest.StashKey[Met]()
COUNTED = pytest.StashKey[list[Counted]]()
NO_NAME = re.compile(r"[^A-Za-z0-9_.-]+")


def pytest_addoption(parser: pytest.Parser) -> None:
    words = "writes the page of each failed test's TPM to this folder"
    group = parser.getgroup("tpmsim")
    group.addoption("--tpmsim-html", metavar="FOLDER", help=words)
    words = "reports which refusals of the TPM the tests have met [of all kinds]"
    kinds = [it.value for it in Kind]
    group.addoption(
        "--tpm-coverage", metavar="KIND", nargs="?", const="", choices=["", *kinds], help=words
    )


def pytest_configure(config: pytest.Config) -> None:
    config.addinivalue_line("markers", in_tests.MARK_HELP)
    if config.getoption("--tpm-coverage") is not None:
        config.stash[COVERAGE] = Met()


def caller_of(request: pytest.FixtureRequest, device: Transport) -> Caller:
    request.node.stash.setdefault(DEVICES, []).append(device)
    met = request.config.stash.get(COVERAGE, None)
    if met is not None:
        request.node.stash.setdefault(COUNTED, []).append(Counted(met, device))
    caller = Caller(device)
    caller.start_up()
    return caller


@pytest.fixture
def tpm(request: pytest.FixtureRequest) -> Iterator[Caller]:
    """Yields a caller of a fresh device."""
    part = request.node.stash.get(PART, None)
    if part is not None:
        part.device = in_tests.SweptDevice()
    with part.device if part is not None else Device() as device:
        yield caller_of(request, device)


@pytest.fixture
def tpm_saved(request: pytest.FixtureRequest, tmp_path: Path) -> Iterator[Caller]:
    """Yields a caller of a new device, whose image is tpm.image in the folder of the test."""
    with Device(image=tmp_path / "tpm.image") as device:
        yield caller_of(request, device)


@pytest.fixture
def tpm_of(request: pytest.FixtureRequest) -> Iterator[Callable[[Transport], Caller]]:
    """Yields a function that makes a caller of any device, and closes the devices after the test."""
    devices = list[Transport]()

    def made(device: Transport) -> Caller:
        devices.append(device)
        return caller_of(request, device)

    yield made
    for device in devices:
        device.close()


def page_left(folder: str, name: str, log: bytes) -> str:
    """Writes the page that explains a test's log, and returns the page's path."""
    path = Path(folder, f"{NO_NAME.sub('_', name)}.html")
    path.parent.mkdir(parents=True, exist_ok=True)
    path.write_text(page.of_log(name, Play(is_whole=True), log, text.Counts()), "utf-8")
    return str(path)


@pytest.hookimpl(tryfirst=True)  # type: ignore[misc]
def pytest_runtest_protocol(item: pytest.Item) -> None:
    """Sweeps a test before it runs, if it is to be swept."""
    in_tests.sweep_marked(item)


@pytest.hookimpl(hookwrapper=True)  # type: ignore[misc]
def pytest_runtest_call(item: pytest.Item) -> Generator[None, Any, None]:
    part = item.stash.get(PART, None)
    if part is not None:
        part.begin()
    yield


@pytest.hookimpl(hookwrapper=True)  # type: ignore[misc]
def pytest_runtest_makereport(
    item: pytest.Item, call: pytest.CallInfo[None]
) -> Generator[None, Any, None]:
    report = (yield).get_result()
    part = item.stash.get(PART, None)
    if part is not None and report.when == "call":
        in_tests.judge(part, item, call.excinfo.value if call.excinfo else None, report)
    if report.when == "call":
        for it in item.stash.get(COUNTED, []):
            it.count()
    if not report.failed:
        return
    folder = item.config.getoption("--tpmsim-html")
    devices: list[Transport] = item.stash.get(DEVICES, [])
    for at, device in enumerate(devices, 1):
        report.sections.append(("the commands that the TPM got", "\n".join(device.trace)))
        if report.when == "teardown":
            continue  # the test's fixtures have closed the devices
        log = log_of(device)
        why = why_refused(log)
        if why:
            report.sections.append(("why the TPM refused it", why))
        if folder:
            name = f"{item.nodeid}-{at}" if at > 1 else item.nodeid
            report.sections.append(("the page of the TPM", page_left(folder, name, log)))


def pytest_terminal_summary(terminalreporter: Any, config: pytest.Config) -> None:
    met = config.stash.get(COVERAGE, None)
    if met is None:
        return
    kind = config.getoption("--tpm-coverage")
    terminalreporter.section("refusals of the TPM that the tests have met")
    for it in table(met, Kind(kind) if kind else None):
        terminalreporter.write_line(it)
