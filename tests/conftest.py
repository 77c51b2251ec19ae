"""What the tests need from pytest beyond its own options: each `subTest` counts as a case, long modules begin first, and a process
that ends before its cases fails one of them alone."""
import json
import os
import pathlib

import pytest
import pytest_subtests
from _pytest._code import ExceptionInfo
from _pytest.unittest import TestCaseFunction
from xdist.scheduler import LoadScopeScheduling

from tests.support import COUNTS

# The kinds of reports of pytest and its plugins, and what each counts as.
KINDS = {"passed": "passed", "subtests passed": "passed", "failed": "failed", "error": "failed", "skipped": "skipped"}

ENDED_TOO_SOON = pytest.StashKey()


@pytest.hookimpl(trylast=True)
def pytest_configure(config):
    TestCaseFunction.addSubTest = report_part


def report_part(item, case, part, error):
    """Reports a `subTest`, even one that passed, which the plugin leaves out, and its name, even if that is not a text."""
    found = error and ExceptionInfo(error, _ispytest=True)
    call = pytest_subtests.make_call_info(found, start=0, stop=0, duration=0, when="call")
    report = pytest_subtests.SubTestReport._from_test_report(item.ihook.pytest_runtest_makereport(item=item, call=call))
    report.context = pytest_subtests.SubTestContext(part._subDescription().strip("[]"), {})
    item.ihook.pytest_runtest_logreport(report=report)


class Classes(LoadScopeScheduling):
    """Each class stays in one process. If that ends too soon, another one runs what is left of the class. xdist would run the
    case that ended it again and again."""

    def remove_node(self, node):
        """Returns the case that was under way in a process that has ended, or None."""
        classes = self.assigned_work.pop(node)
        under_way = next((case for cases in classes.values() for case, is_done in cases.items() if not is_done), None)
        if under_way:
            classes[self._split_scope(under_way)][under_way] = True
            self.workqueue.update((name, cases) for name, cases in classes.items() if not all(cases.values()))
            for other in self.nodes:
                self._reschedule(other)
        return under_way

    def _reschedule(self, node):
        """A process begins a case once it knows the next one, or that there is none. So one case is not enough for it to begin."""
        super()._reschedule(node)
        while self.workqueue and not node.shutting_down and self._pending_of(self.assigned_work[node]) < 2:
            super()._reschedule(node)


def pytest_xdist_make_scheduler(config, log):
    return Classes(config, log)


def pytest_testnodedown(node, error):
    """A process that ends too soon fails the run, even if no case was under way."""
    if error:
        node.config.stash[ENDED_TOO_SOON] = True


def pytest_collection_modifyitems(items):
    items.sort(key=lambda item: item.get_closest_marker("long") is None)


def pytest_sessionfinish(session):
    """Writes what passed, failed and was skipped, and the modules in which it did, to the file that `./test` names."""
    if ENDED_TOO_SOON in session.config.stash:
        session.exitstatus = pytest.ExitCode.TESTS_FAILED
    terminal = session.config.pluginmanager.get_plugin("terminalreporter")
    if COUNTS in os.environ and terminal and not hasattr(session.config, "workerinput"):
        counts, modules = dict.fromkeys(KINDS.values(), 0), set()
        for kind, counted in KINDS.items():
            reports = terminal.stats.get(kind, [])
            # each process reports that a module cannot be read
            counts[counted] += len({it.nodeid if isinstance(it, pytest.CollectReport) else id(it) for it in reports})
            modules.update(it.nodeid.partition("::")[0] for it in reports)
        pathlib.Path(os.environ[COUNTS]).write_text(json.dumps({**counts, "modules": sorted(modules)}))
