"""A downloader middleware of Scrapy by which `crawlgate serve --http` fetches each page, of http and https.

README.md says which settings it needs. It is the last middleware before the download: the gate is asked for the page in
path form, and what comes before it (retries, redirects, caches, the spider) sees the page's own URL.
"""
import re
import time

from scrapy.exceptions import IgnoreRequest
from scrapy.utils.defer import maybe_deferred_to_future
from scrapy.utils.httpobj import urlparse_cached
from twisted.internet.error import ConnectError, ConnectionClosed
from twisted.internet.task import deferLater
from twisted.web.client import URI, ResponseFailed

# what Proxy-Status says of an answer that is the gate's own
OWN = re.compile(rb'crawlgate; error=(\w+); details="(.*)"')
# what the target of a request may have
PRINTED = re.compile("[!-~]+")
# fields of a spider for which the gate would take it for a browser, or the request for another host's
REFUSED = ("Host", "Origin", "Sec-Fetch-Site")
# a gate that is away, and the pause between two tries, in seconds
GONE, PAUSE = (ConnectError, ConnectionClosed, ResponseFailed), 0.5
# answers of the gate that Scrapy follows or, as RETRY_TIMES says, asks for again; but for pages that come no other way
# then
LEFT_TO_SCRAPY = (308, 500, 502, 503, 504)
NEVER = (b"http_response_body_size", b"http_response_content_coding")


class GateMiddleware:
    @classmethod
    def from_crawler(cls, crawler):
        return cls(crawler.settings)

    def __init__(self, settings):
        self.front, self.token = settings.get("CRAWLGATE_FRONT"), settings.get("CRAWLGATE_TOKEN")
        self.away = settings.getfloat("CRAWLGATE_AWAY", 60)
        if not self.front or not self.token:
            # (a middleware that is not configured would be left out, and pages fetched without the gate)
            raise ValueError("CRAWLGATE_FRONT and CRAWLGATE_TOKEN are to be set")

    def process_request(self, request, spider):
        """Has the gate asked for the page. Delays and places are those of its host."""
        page = request.url.partition("#")[0]
        asked = f"{self.front}/{page}"
        if not PRINTED.fullmatch(asked) or sent(asked) != asked:
            raise IgnoreRequest(f"crawlgate: Scrapy can't ask for exactly {page}")
        request.meta["crawlgate_page"], request.meta["download_slot"] = request.url, urlparse_cached(request).hostname
        request.meta.pop("proxy", None)
        for name in REFUSED:
            request.headers.pop(name, None)
        request.headers["Crawlgate-Token"] = self.token
        # (by replace it would be another request, without the delays and places of this one)
        request._url = asked

    def process_response(self, request, response, spider):
        page = put_back(request)
        if page is None:
            return response
        request.meta.pop("crawlgate_gone", None)
        status, location = response.headers.get("Proxy-Status", b""), response.headers.get("Location", b"")
        own = OWN.fullmatch(status)
        if not status.startswith(b"crawlgate; "):
            raise IgnoreRequest(f"crawlgate: status {response.status}")
        if own and (response.status not in LEFT_TO_SCRAPY or own[1] in NEVER):
            raise IgnoreRequest(f"crawlgate: {own[2].decode()}")
        if location.startswith(b"/"):
            response.headers["Location"] = location[1:]
        return response.replace(url=page.partition("#")[0])

    async def process_exception(self, request, exception, spider):
        """Waits for a gate that is away, and has the page asked for again."""
        from twisted.internet import reactor

        if put_back(request) is None or not isinstance(exception, GONE):
            return None
        if time.monotonic() - request.meta.setdefault("crawlgate_gone", time.monotonic()) > self.away:
            return None
        await maybe_deferred_to_future(deferLater(reactor, PAUSE, lambda: None))
        return request.replace(dont_filter=True)


def put_back(request):
    """Gives a request its page's URL, and returns that; None if the gate was not asked."""
    page = request.meta.pop("crawlgate_page", None)
    request._url = page or request.url
    return page


def sent(url):
    """Returns the URL that Twisted asks for: it loses a `;` with nothing after it."""
    uri = URI.fromBytes(url.encode("ascii"))
    return b"".join([uri.scheme, b"://", uri.netloc, uri.originForm]).decode("ascii")
