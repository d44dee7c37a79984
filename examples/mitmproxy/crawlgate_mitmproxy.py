"""An add-on of mitmproxy by which any client's pages, of http and https, are fetched by `crawlgate serve --http`.
README.md says how it is run. The product token is the user that the client names to its proxy."""
import base64
import binascii

from mitmproxy import ctx, http

# no connection to a site: not before a request, not for its certificate, and not for what is no HTTP
GATE_ALONE = {"connection_strategy": "lazy", "upstream_cert": False, "rawtcp": False}
# the client's fields that the gate reads, or hands on with --forward
KEPT = ("accept", "accept-language", "if-modified-since", "if-none-match", "crawlgate-cut")


class Gate:
    def __init__(self):
        # the token of each connection that has asked for TLS
        self.tokens = {}

    def load(self, loader):
        loader.add_option("crawlgate", str, "127.0.0.1:4080", "the address and the port of `crawlgate serve --http`")

    def running(self):
        ctx.options.update(**GATE_ALONE)

    def http_connect(self, flow):
        self.tokens[flow.client_conn.id] = token = token_of(flow)
        if token is None:
            flow.response = no_token()

    def client_disconnected(self, client):
        self.tokens.pop(client.id, None)

    def requestheaders(self, flow):
        """Has the gate asked for the page, in path form."""
        request = flow.request
        token = token_of(flow) or self.tokens.get(flow.client_conn.id)
        if token is None:
            flow.response = no_token()
        elif request.method != "GET":
            flow.response = http.Response.make(405, b"", {"Allow": "GET"})
        else:
            host, _, port = ctx.options.crawlgate.rpartition(":")
            kept = [(name, value) for name, value in request.headers.fields if name.decode("latin-1").lower() in KEPT]
            request.path, request.headers = f"/{request.url}", http.Headers([(b"Host", b""), *kept])
            request.headers["Crawlgate-Token"] = token
            request.scheme, request.host, request.port = "http", host, int(port)

    def response(self, flow):
        """Has a redirect lead to its page in place of the gate."""
        location = flow.response.headers.get("Location", "")
        if location.startswith("/"):
            flow.response.headers["Location"] = location[1:]


def token_of(flow):
    """Returns the user of the proxy's credentials, or None."""
    kind, _, credentials = flow.request.headers.get("Proxy-Authorization", "").partition(" ")
    try:
        user = base64.b64decode(credentials).decode("ascii").partition(":")[0]
    except (binascii.Error, UnicodeDecodeError):
        return None
    return user if kind.lower() == "basic" and user and user.isprintable() else None


def no_token():
    return http.Response.make(407, b"", {"Proxy-Authenticate": 'Basic realm="product token"'})


addons = [Gate()]
