"""What all tests share: the builds of the verified programs, the limit of each test, and the last line of a run."""

import compileall
import faulthandler
import os
import resource
import shutil
import signal
import sys
import tempfile
import zlib
from collections import Counter
from pathlib import Path
from typing import Any, Callable, Iterator, List, TypeVar

import project
import pytest
import starter
from differences import Differences

# Seconds of processor time that Python may take in one test. A test that calls the C library could otherwise be in a
# loop that no exception ends. A busy machine does not shorten this limit.
LIMIT = 60
LIMIT_OF_LONG = 1800
BEGUN = pytest.StashKey[float]()
Called = TypeVar("Called", bound=Callable[..., Any])


def hook(**options: bool) -> Callable[[Called], Called]:
    """Returns pytest.hookimpl with these options, and with its type."""
    made: Callable[[Called], Called] = pytest.hookimpl(**options)
    return made


def pytest_addoption(parser: pytest.Parser) -> None:
    parser.addoption(
        "--both-builds",
        action="store_true",
        help="fail if a program is not there in both builds, as `rt ci` leaves them",
    )
    parser.addoption(
        "--write",
        action="store_true",
        help="store what a test computes from the sources, such as the reading list, and do not compare it",
    )

    parser.addoption(
        "--processor-seconds",
        type=int,
        metavar="N",
        default=0,
        help="print the N tests that take the most processor time, with that of their children, and the sum of all",
    )


def run_scripts_by_this_python(folder: str) -> None:
    """Makes this Python the `python3` in PATH, by which the commands without an ending run. Another one there may start
    slowly, as a script that looks for the right version. The modules of the package are compiled first, which a command
    does not store.
    """
    compileall.compile_dir(project.ROOT / "python" / "tlbridge", quiet=2)
    found = shutil.which("python3")
    if sys.prefix != sys.base_prefix or (found and os.path.realpath(found) == os.path.realpath(sys.executable)):
        return
    os.symlink(sys.executable, os.path.join(folder, "python3"))
    os.environ["PATH"] = os.pathsep.join((folder, os.environ.get("PATH", os.defpath)))


def share_tools(config: pytest.Config) -> None:
    """Prepares what speeds up all workers: the Python of scripts, and the objects of Verilator's own library."""
    if "TLBRIDGE_TEST_OBJECTS" in os.environ:  # a worker has those of its parent
        return
    folder = tempfile.mkdtemp(prefix="tlbridge-tests.")
    config.add_cleanup(lambda: shutil.rmtree(folder, ignore_errors=True))
    os.environ["TLBRIDGE_TEST_OBJECTS"] = folder
    keeper = str(project.ROOT / "tests" / "lib" / "keep_objects.sh")
    if " " not in keeper:  # at which make would divide it
        os.environ.setdefault("OBJCACHE", keeper)
    run_scripts_by_this_python(folder)


def pytest_configure(config: pytest.Config) -> None:
    share_tools(config)
    project.programs_are_required = config.getoption("--both-builds")
    capture: Any = config.pluginmanager.getplugin("capturemanager")
    with capture.global_and_fixture_disabled():
        errors = os.dup(2)
    faulthandler.register(signal.SIGVTALRM, file=errors, all_threads=False, chain=True)


@hook(hookwrapper=True)
def pytest_runtest_protocol(item: pytest.Item) -> Iterator[None]:
    """Ends the process with a traceback if a test exceeds its limit."""
    signal.setitimer(signal.ITIMER_VIRTUAL, LIMIT_OF_LONG if item.get_closest_marker("long") else LIMIT)
    yield
    signal.setitimer(signal.ITIMER_VIRTUAL, 0)


def processor_seconds() -> float:
    """Returns the processor time of this process and of its children that have ended."""
    used = [resource.getrusage(who) for who in (resource.RUSAGE_SELF, resource.RUSAGE_CHILDREN)]
    return sum(of.ru_utime + of.ru_stime for of in used) + starter.seconds_of_runs()


@hook(hookwrapper=True)
def pytest_runtest_setup(item: pytest.Item) -> Iterator[None]:
    """Notes the processor time at which a test begins."""
    item.stash[BEGUN] = processor_seconds()
    yield


@hook(hookwrapper=True)
def pytest_runtest_makereport(item: pytest.Item, call: "pytest.CallInfo[None]") -> Iterator[None]:
    """Notes the processor time of a test, which the process of the summary reads, in its report."""
    outcome: Any = yield
    if call.when == "teardown":
        outcome.get_result().user_properties.append(("processor seconds", processor_seconds() - item.stash[BEGUN]))


# Files whose tests need nothing in common, and take so long that all processors should share them: those with the most
# expensive tests first.
SHARED = tuple(
    f"tests/{name}.py"
    for name in (
        "verify/test_verify_long",
        "prove/test_adapters",
        "repository/test_linters",
        "verify/test_verify",
        "rtl/test_rtl_proofs",
        "rtl/test_rtl_long",
        "rtl/test_rtl_formal",
        "waves/test_simulators",
        "checker/test_checker_long",
        "checker/test_levels",
        "rtl/test_rtl_resets",
        "rtl/test_rtl_wrappers",
        "checker/test_checker",
        "links/test_links",
        "explain/test_explain",
        "explain/test_remarks",
        "program/test_chain",
        "program/test_hostile",
        "program/test_program",
        "program/test_refusals",
        "repository/test_inputs",
    )
)
SHARES = 8


def unit_of(nodeid: str) -> str:
    """The unit in which a test is sent to a process: its file, or a share of the file's tests of one name."""
    file, _, name = nodeid.partition("::")
    if file not in SHARED:
        return file
    return f"{file}::{name.partition('[')[0]}, {zlib.crc32(nodeid.encode()) % SHARES}"


@hook(optionalhook=True)
def pytest_xdist_make_scheduler(config: pytest.Config, log: Any) -> Any:
    """Runs each file in one process, as --dist loadfile does, except those above."""
    if config.getoption("dist") != "loadfile":
        return None
    from xdist.scheduler import LoadScopeScheduling

    class Units(LoadScopeScheduling):
        def _split_scope(self, nodeid: str) -> str:
            return unit_of(nodeid)

    return Units(config, log)


@hook(trylast=True)
def pytest_collection_modifyitems(items: List[pytest.Item]) -> None:
    """Begins with the files that one process runs, and ends with the small units that fill all processes. pytest has
    put tests with the same build of a program next to each other before.
    """
    places = {file: place for place, file in enumerate(SHARED, 1)}
    items.sort(key=lambda item: places.get(item.nodeid.partition("::")[0], 0))


@pytest.fixture
def differences() -> Differences:
    """Collects what differs in a test, which then fails with all of it."""
    return Differences()


@hook(hookwrapper=True)
def pytest_pyfunc_call(pyfuncitem: pytest.Function) -> Iterator[None]:
    """Fails a test that found differences, once it has ended."""
    outcome: Any = yield
    if not outcome.excinfo and "differences" in pyfuncitem.funcargs:
        differences: Any = pyfuncitem.funcargs["differences"]
        differences.fail()


# The build by LLVM is the one that users run. `rt ci` leaves both, so the gate tests both.
BUILDS = [
    pytest.param(build, id="rattle" if build else "llvm", marks=[pytest.mark.gate] * bool(build))
    for build in project.BUILDS
]


@pytest.fixture(scope="session", params=BUILDS)
def tlbridge(request: pytest.FixtureRequest) -> Path:
    """The verified program `tlbridge`, once in each build."""
    return project.needs_program("tlbridge", request.param)


@pytest.fixture(scope="session", params=BUILDS)
def tlexplain(request: pytest.FixtureRequest) -> Path:
    """The verified program `tlexplain`, once in each build."""
    return project.needs_program("tlexplain", request.param)


@pytest.fixture(scope="session")
def library() -> Path:
    """The shared library with the pair 8:4, which the Python package then finds: the one that the variable
    TLBRIDGE_LIBRARY names, or the one that `make install` left in out/."""
    if not os.environ.get("TLBRIDGE_LIBRARY"):
        os.environ["TLBRIDGE_LIBRARY"] = str(project.needs_library("8:4"))
    return Path(os.environ["TLBRIDGE_LIBRARY"])


def stale_programs() -> List[Path]:
    """The built programs that are older than a source."""
    sources = [path for part in ("src", "specs", "proofs") for path in project.ROOT.glob(f"crates/*/{part}/**/*")]
    newest = max((path.stat().st_mtime for path in sources if path.is_file()), default=0.0)
    programs = [project.built(name) for name in ("tlbridge", "tlexplain")]
    return [path for path in programs if path.is_file() and path.stat().st_mtime < newest]


def print_processor_seconds(terminalreporter: Any) -> None:
    """Prints the tests that took the most processor time, with --processor-seconds."""
    most = terminalreporter.config.getoption("--processor-seconds")
    reports = [report for reports in terminalreporter.stats.values() for report in reports if hasattr(report, "when")]
    used = sorted(
        (value, report.nodeid)
        for report in reports
        if report.when == "teardown"
        for name, value in report.user_properties
        if name == "processor seconds"
    )
    for value, nodeid in reversed(used[-most:] if most else []):
        terminalreporter.write_line(f"{value:8.1f} s {nodeid}")
    if most:
        terminalreporter.write_line(f"{sum(value for value, _ in used):8.1f} s of processor time in {len(used)} tests")


@hook(hookwrapper=True, tryfirst=True)
def pytest_terminal_summary(terminalreporter: Any) -> Iterator[None]:
    """Prints why tests were left out, and in the last line `N passed, M failed, K left out`, for .ci/run."""
    yield
    reasons = Counter(str(report.longrepr[2]) for report in terminalreporter.stats.get("skipped", []))
    for reason, count in sorted(reasons.items()):
        terminalreporter.write_line(f"left out: {count}: {reason.replace('Skipped: ', '', 1)}")
    for path in stale_programs():
        terminalreporter.write_line(f"{path.relative_to(project.ROOT)} is older than a source: it was tested as it is")
    print_processor_seconds(terminalreporter)
    counts = {name: len(terminalreporter.stats.get(name, [])) for name in ("passed", "failed", "error", "skipped")}
    left_out = f", {counts['skipped']} left out" if counts["skipped"] else ""
    terminalreporter.write_line(f"{counts['passed']} passed, {counts['failed'] + counts['error']} failed{left_out}")
