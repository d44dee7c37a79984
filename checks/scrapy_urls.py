#!/usr/bin/env python3
"""What Scrapy and the middleware of examples/scrapy make of URLs. The Python that has Scrapy runs it, for
checks/scrapy.

usage: scrapy_urls.py < URLS

Of each line that Scrapy takes for a URL it writes the URL of the request, and the page that the gate is asked for, from
what would be written to its connection, or `refused`. Nothing is connected to.
"""
import contextlib
import sys

from crawlgate_scrapy import GateMiddleware
from scrapy import Request
from scrapy.core.downloader.handlers.http11 import HTTP11DownloadHandler
from scrapy.exceptions import IgnoreRequest
from scrapy.settings import Settings
from twisted.internet import defer, error
from twisted.internet.testing import StringTransport

SETTINGS = {"CRAWLGATE_TOKEN": "foobot", "CRAWLGATE_FRONT": "http://127.0.0.1:4080"}


class Wire:
    """Stands for all connections of a handler: it keeps what was written last, and answers nothing."""

    persistent = True

    def getConnection(self, key, endpoint):
        assert key == (b"http", b"127.0.0.1", 4080), key
        return defer.succeed(self)

    def request(self, request):
        transport = StringTransport()
        request.writeTo(transport)
        self.octets = transport.value()
        return defer.fail(error.ConnectionRefusedError())

    def page(self):
        """Returns the page that was asked for."""
        first, *fields = self.octets.split(b"\r\n")
        named = dict(it.lower().split(b": ", 1) for it in fields if b": " in it)
        assert (named[b"host"], named[b"crawlgate-token"]) == (b"127.0.0.1:4080", b"foobot"), fields
        target = first.split(b" ")[1]
        assert target.startswith(b"/"), target
        return target[1:].decode("ascii")


def page_of(middleware, handler, request):
    """Returns the page that the gate is asked for by a request."""
    try:
        middleware.process_request(request, None)
    except IgnoreRequest:
        return "refused"
    ended = []
    handler.download_request(request, None).addErrback(ended.append)
    if not ended[0].check(error.ConnectionRefusedError):
        ended[0].raiseException()
    return handler._pool.page()


def main():
    middleware, handler = GateMiddleware(Settings(SETTINGS)), HTTP11DownloadHandler(Settings(SETTINGS))
    handler._pool = Wire()
    for text in sys.stdin.read().split("\n")[:-1]:
        with contextlib.suppress(ValueError):
            request = Request(text)
            print(request.url, page_of(middleware, handler, request), sep="\t")


if __name__ == "__main__":
    main()
