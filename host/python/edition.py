"""The independent code loaded once more, as it stands or with one passage changed: so the tests of it can be tried on
wrong variants, each of which they must tell apart. For tests."""

import sys
import unittest
from pathlib import Path
from types import ModuleType, SimpleNamespace

# Each imports from those before it alone.
NAMES = ("arithmetic", "link", "ledger", "book", "image", "record", "interval", "synthetic", "bill")


def source(name):
    return (Path(__file__).parent / f"{name}.py").read_text(encoding="utf-8")


def edited(text, before, after):
    """A module's text with a passage changed that stands there once: another one would be another edit, or none."""
    if text.count(before) != 1:
        raise ValueError(f"{text.count(before)} times there: {before}")
    return text.replace(before, after)


def loaded(edits=()):
    """The modules by name. An edit is a module's name, a passage and what stands in its place."""
    texts = {name: source(name) for name in NAMES}
    for name, before, after in edits:
        texts[name] = edited(texts[name], before, after)
    kept = {name: sys.modules.get(name) for name in NAMES}
    made = {}
    try:
        for name in NAMES:
            made[name] = sys.modules[name] = ModuleType(name)
            exec(compile(texts[name], f"{name}.py, edited", "exec"), made[name].__dict__)
    finally:
        for name, module in kept.items():
            if module is None:
                del sys.modules[name]
            else:
                sys.modules[name] = module
    return SimpleNamespace(**made)


def failing(tests, kit, name=None, **other):
    """The names of those of a class's tests, or of the one that is named, that fail on this code."""
    changed = type(tests.__name__, (tests,), {"kit": kit, **other})
    result = unittest.TestResult()
    suite = changed(name) if name else unittest.defaultTestLoader.loadTestsFromTestCase(changed)
    suite.run(result)
    failed = [test for test, _ in result.failures + result.errors]
    return {getattr(test, "test_case", test)._testMethodName for test in failed}
