"""What a case has by the names of its parameters: a `site`, a `server` with the words of `served`, a `session` with it
and an `other` one. The scripts give them by `given`; conftest.py makes fixtures of pytest of them."""
import contextlib
import inspect
import types

from lib.server import Server, Session
from lib.sites import open_site


def served(*words):
    """Says with which words the server of a case is started."""

    def marked(case):
        case.words = words
        return case

    return marked


def site():
    yield open_site()


def server(request):
    with Server(*getattr(request.function, "words", ())) as it:
        yield it


def session(server):
    with Session(server) as it:
        yield it


def other(server):
    with Session(server) as it:
        yield it


FIXTURES = {it.__name__: it for it in (site, server, session, other)}


@contextlib.contextmanager
def given(case):
    """Gives what the parameters of a case name, and ends it after the case."""
    with contextlib.ExitStack() as stack:
        found = {"request": types.SimpleNamespace(function=case)}

        def value_of(name):
            if name not in found:
                needs = [value_of(it) for it in inspect.signature(FIXTURES[name]).parameters]
                found[name] = stack.enter_context(contextlib.contextmanager(FIXTURES[name])(*needs))
            return found[name]

        yield {it: value_of(it) for it in inspect.signature(case).parameters}
