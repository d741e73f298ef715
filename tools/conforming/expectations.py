"""The expectations of cases: where a case says what is right. A play that isn't kept fails at one of them, unless it
fails at a step before."""

import ast
import inspect
import os
from collections import namedtuple

# Where an expectation stands: its file, its first and last line, and what it says.
Expectation = namedtuple("Expectation", "file first last text")


def is_expectation(node):
    """Whether a part of a program says what is right: a call of a function whose name begins so, or that something
    isn't kept."""
    if isinstance(node, ast.Raise):
        return "NotKept" in ast.dump(node)
    name = getattr(node.func, "id", getattr(node.func, "attr", "")) if isinstance(node, ast.Call) else ""
    return name.startswith("expect")


def used_by(function, modules):
    """The functions of these modules by which a case is played: its own, and those that they name."""
    found, new = {function.__name__: function}, [function]
    while new:
        it = new.pop()
        for node in ast.walk(ast.parse(inspect.getsource(it))):
            name = node.id if isinstance(node, ast.Name) else None
            other = it.__globals__.get(name)
            if inspect.isfunction(other) and other.__module__ in modules and name not in found:
                found[name] = other
                new.append(other)
    return found.values()


def of_function(function):
    """The expectations that stand in a function."""
    lines, start = inspect.getsourcelines(function)
    file = os.path.basename(inspect.getsourcefile(function))
    for node in ast.walk(ast.parse("".join(lines))):
        if is_expectation(node):
            first, last = start + node.lineno - 1, start + node.end_lineno - 1
            yield Expectation(file, first, last, lines[node.lineno - 1].strip())


def of_cases(cases, modules):
    """The expectations of cases, each with the families that have it."""
    names, found = {it.__name__ for it in modules}, {}
    for case in {it.family: it for it in cases}.values():
        for function in used_by(case.function, names):
            for it in of_function(function):
                found.setdefault(it, set()).add(case.family)
    return found


def places(error):
    """The lines through which an error came, as files and numbers."""
    found, trace = [], error.__traceback__
    while trace is not None:
        found.append((os.path.basename(trace.tb_frame.f_code.co_filename), trace.tb_lineno))
        trace = trace.tb_next
    return tuple(found)


def not_failed(expected, outcomes):
    """Those of some expectations at which no play failed."""
    met = {place for it in outcomes for place in it.places}
    return [it for it in expected if not any((it.file, line) in met for line in range(it.first, it.last + 1))]
