"""The cases of the scripts beside this file for pytest (Debian's python3-pytest), one by one:

    pytest checks/serve/run -k look_inside
    pytest checks/http/run checks/fleet/run --lf --durations=5

They are those that the scripts try by themselves, as the gate calls them. --program PATH names the built program where
it is not crates/crawlgate/out/crawlgate. A case may ask for a `site`, a `server`, a `session` and an `other` one, which
are those of lib/fixtures.py. One that is beyond a bound of time is tried again, three times at most.
"""
import importlib.machinery
import importlib.util
import os
import shutil
import sys

import pytest
from _pytest.runner import runtestprotocol

CHECKS = os.path.dirname(os.path.realpath(__file__))
NAMES = "serve/run", "http/run", "crawls/run", "fleet/run", "examples", "scrapy", "package"
SCRIPTS = [f"{CHECKS}/{name}" for name in NAMES]
ATTEMPTS = 3

sys.dont_write_bytecode = True
sys.path.append(CHECKS)
pytest.register_assert_rewrite("lib.cases", "lib.server", "lib.sites")
from lib import fixtures  # noqa: E402
from lib.cases import OutOfTime, Skipped  # noqa: E402
from lib.program import BUILT  # noqa: E402
from lib.server import Server  # noqa: E402

site, server, session, other = map(pytest.fixture, fixtures.FIXTURES.values())


@pytest.fixture(scope="module")
def package(request, tmp_path_factory):
    """The package of the program, which is built once for all cases."""
    if not shutil.which("dpkg-deb"):
        pytest.skip("there is no dpkg-deb")
    return request.module.Package(str(tmp_path_factory.mktemp("package")), Server.program)


def pytest_addoption(parser):
    parser.addoption("--program", default=BUILT, help="the built program")


def pytest_configure(config):
    Server.program = os.path.realpath(config.getoption("--program"))
    if not os.path.isfile(Server.program):
        raise pytest.UsageError(f"there is no {Server.program}: build it by checks/build, or name another by --program")


def pytest_collect_file(file_path, parent):
    if os.path.realpath(file_path) in SCRIPTS:
        return Script.from_parent(parent, path=file_path)
    return None


def modules_in(folder):
    """Returns the names of the modules in the folder of a script."""
    return [
        it.removesuffix(".py") for it in os.listdir(folder) if it.endswith(".py") and it != os.path.basename(__file__)
    ]


def loaded(path):
    """Returns a script as a module. The modules beside it are its own: other scripts have some of the same names."""
    folder = os.path.dirname(path)
    names = modules_in(folder)
    pytest.register_assert_rewrite(*(it for it in names if it not in sys.modules))
    sys.path.insert(0, folder)
    loader = importlib.machinery.SourceFileLoader(f"run_{os.path.basename(folder)}_{os.path.basename(path)}", path)
    script = importlib.util.module_from_spec(importlib.util.spec_from_loader(loader.name, loader))
    loader.exec_module(script)
    sys.path.remove(folder)
    for name in names:
        sys.modules.pop(name, None)
    return script


class Script(pytest.Module):
    """A script with a list of cases."""

    def _getobj(self):
        return loaded(os.path.realpath(self.path))

    def collect(self):
        script = self.obj
        cases = [script.measured(it) for it in script.CRAWLS] if hasattr(script, "CRAWLS") else script.CASES
        for case in cases:
            yield Case.from_parent(self, name=case.__name__, callobj=case)


class Case(pytest.Function):
    """A case of a script."""

    def runtest(self):
        try:
            print(self.obj(**{it: self.funcargs[it] for it in self._fixtureinfo.argnames}) or "")
        except Skipped as why:
            pytest.skip(str(why))

    def reportinfo(self):
        code = getattr(self.obj, "__wrapped__", self.obj).__code__
        return code.co_filename, code.co_firstlineno - 1, self.name


@pytest.hookimpl(hookwrapper=True)
def pytest_runtest_makereport(item, call):
    report = (yield).get_result()
    report.is_out_of_time = call.excinfo is not None and call.excinfo.errisinstance(OutOfTime)


def pytest_runtest_protocol(item, nextitem):
    """Tries a case again, with fixtures of its own, while it is out of time."""
    item.ihook.pytest_runtest_logstart(nodeid=item.nodeid, location=item.location)
    for left in reversed(range(ATTEMPTS)):
        item._initrequest()
        reports = runtestprotocol(item, log=False, nextitem=nextitem)
        if not left or not any(it.is_out_of_time for it in reports):
            break
    for it in reports:
        item.ihook.pytest_runtest_logreport(report=it)
    item.ihook.pytest_runtest_logfinish(nodeid=item.nodeid, location=item.location)
    return True
