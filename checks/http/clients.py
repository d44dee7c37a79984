"""Cases of checks/http with clients of HTTP that are installed here: by `http_proxy`, and in path form."""
import os
import shutil
import subprocess
import tempfile
from collections import namedtuple
from concurrent.futures import ThreadPoolExecutor

from front import Echo, Front, python_with
from lib.cases import Skipped, same, short
from lib.server import SECONDS
from lib.sites import response

RULES = b"User-agent: *\nDisallow: /private\n"
FIELD = "Crawlgate-Token: foobot"
AT_ONCE = 4

# Each program gets URLs, and in $FIELD a field to send, if any. It writes the status and the body of each, and what
# follows a line.
MARK = "--"
URLLIB = """
import os, sys, urllib.request, urllib.error
for url in sys.argv[1:]:
    request = urllib.request.Request(url, headers=dict(it.split(": ") for it in os.environ["FIELD"].splitlines()))
    try:
        found = urllib.request.urlopen(request, timeout=20)
    except urllib.error.HTTPError as error:
        found = error
    print(found.status, found.read().decode(), "--", flush=True)
"""
REQUESTS = """
import os, sys, requests
session = requests.Session()
for url in sys.argv[1:]:
    found = session.get(url, headers=dict(it.split(": ") for it in os.environ["FIELD"].splitlines()), timeout=20)
    print(found.status_code, found.text, "--", flush=True)
"""
HTTPX = """
import os, sys, httpx
with httpx.Client(timeout=20, follow_redirects=True) as client:
    for url in sys.argv[1:]:
        found = client.get(url, headers=dict(it.split(": ") for it in os.environ["FIELD"].splitlines()))
        print(found.status_code, found.text, "--", flush=True)
"""
AIOHTTP = """
import aiohttp, asyncio, os, sys
async def main():
    async with aiohttp.ClientSession(trust_env=True) as session:
        fields = dict(it.split(": ") for it in os.environ["FIELD"].splitlines())
        for url in sys.argv[1:]:
            async with session.get(url, headers=fields) as found:
                print(found.status, await found.text(), "--", flush=True)
asyncio.run(main())
"""
SCRAPY = """
import os, scrapy, sys
from scrapy.crawler import CrawlerProcess
class Spider(scrapy.Spider):
    name = "spider"
    found = {}
    def start_requests(self):
        fields = dict(it.split(": ") for it in os.environ["FIELD"].splitlines())
        for at, url in enumerate(sys.argv[1:]):
            yield scrapy.Request(url, headers=fields, cb_kwargs={"at": at}, dont_filter=True)
    def parse(self, response, at):
        self.found[at] = f"{response.status} {response.text} --"
process = CrawlerProcess({
    "LOG_ENABLED": False, "HTTPERROR_ALLOW_ALL": True, "ROBOTSTXT_OBEY": False, "RETRY_ENABLED": False,
})
process.crawl(Spider)
process.start()
print(*(Spider.found.get(at, "--") for at in range(len(sys.argv) - 1)))
"""
LWP = """
use LWP::UserAgent;
my $agent = LWP::UserAgent->new(env_proxy => 1);
for my $url (@ARGV) {
    my $found = $agent->get($url, split(/: /, $ENV{FIELD}));
    print $found->code, " ", $found->content, " --\n";
}
"""
TINY = """
use HTTP::Tiny;
for my $url (@ARGV) {
    my $found = HTTP::Tiny->new->get($url, { headers => { split(/: /, $ENV{FIELD}) } });
    print $found->{status}, " ", $found->{content}, " --\n";
}
"""
# (Ruby and Go take no proxy for the loopback from the environment, so they are given it)
RUBY = """
require "net/http"
proxy = ENV["http_proxy"] ? URI(ENV["http_proxy"]) : URI("")
fields = ENV["FIELD"].lines.to_h { |it| it.split(": ") }
def get(url, proxy, fields)
  url = URI(url)
  http = Net::HTTP.new(url.host, url.port, proxy.host, proxy.port, proxy.user, proxy.password)
  found = http.get(url.request_uri, fields)
  found["location"] ? get(URI.join(url, found["location"]), proxy, fields) : found
end
ARGV.each { |url| it = get(url, proxy, fields); puts "#{it.code} #{it.body} --" }
"""
GO = """
package main
import ("fmt"; "io"; "net/http"; "net/url"; "os"; "strings")
func main() {
    proxy := func(*http.Request) (*url.URL, error) { return nil, nil }
    if it, _ := url.Parse(os.Getenv("http_proxy")); it.Host != "" { proxy = http.ProxyURL(it) }
    client := http.Client{Transport: &http.Transport{Proxy: proxy}}
    for _, it := range os.Args[1:] {
        request, _ := http.NewRequest("GET", it, nil)
        if name, value, found := strings.Cut(os.Getenv("FIELD"), ": "); found { request.Header.Set(name, value) }
        found, err := client.Do(request)
        if err != nil { panic(err) }
        body, _ := io.ReadAll(found.Body)
        fmt.Println(found.StatusCode, string(body), "--")
    }
}
"""
# (it reads no variable: the proxy is its host, and the page its path)
NODE = """
const http = require("http"), pages = process.argv.slice(2);
const proxy = process.env.http_proxy && new URL(process.env.http_proxy);
function get(page, then) {
    const url = new URL(page), headers = {}, options = {headers};
    if (process.env.FIELD) headers[process.env.FIELD.split(": ")[0]] = process.env.FIELD.split(": ")[1];
    if (proxy) {
        const user = Buffer.from(proxy.username + ":" + proxy.password);
        headers["Proxy-Authorization"] = "Basic " + user.toString("base64");
        headers.Host = url.host;
    }
    const at = proxy || url;
    Object.assign(options, {host: at.hostname, port: at.port, path: proxy ? page : url.pathname + url.search});
    http.get(options, found => {
        let body = "";
        found.on("data", it => body += it);
        found.on("end", () => {
            const to = found.headers.location;
            return to ? get(new URL(to, page).href, then) : then(found.statusCode, body);
        });
    });
}
function next() {
    if (pages.length) get(pages.shift(), (status, body) => { console.log(status, body, "--"); next(); });
}
next();
"""
CURL = 'for url; do curl --silent --location --write-out " %{http_code} --\n" ${FIELD:+-H "$FIELD"} "$url"; done'
WGET = """
for url; do
    wget -q -S --content-on-error --tries 1 -O - ${FIELD:+--header "$FIELD"} "$url" 2> "$0.errors"
    echo " $(sed -n 's/^ *HTTP[^ ]* //p' "$0.errors" | tail -1 | cut -d ' ' -f 1) --"
done
"""

# A client: its name, how it is asked whether it is there, and the words that run a file with its program.
Client = namedtuple("Client", "name program words")


def clients():
    """Returns the clients that are installed here, and the names of the others."""
    shell = [("curl", CURL), ("wget", WGET)]
    modules = [("requests", REQUESTS), ("httpx", HTTPX), ("aiohttp", AIOHTTP), ("scrapy", SCRAPY)]
    others = [("ruby", RUBY, ["ruby"]), ("node", NODE, ["node"]), ("go", GO, ["go", "run"])]
    perl = [("LWP::UserAgent", LWP), ("HTTP::Tiny", TINY)]
    found = [Client(name, text, shutil.which(name) and ["sh"]) for name, text in shell]
    found += [Client("urllib", URLLIB, [python_with("urllib")])]
    for name, text in modules:
        python = python_with(name)
        found.append(Client(name, text, python and [python]))
    found += [Client(name, text, has_perl(name) and ["perl"]) for name, text in perl]
    found += [Client(name, text, shutil.which(words[0]) and words) for name, text, words in others]
    return [it for it in found if it.words], [it.name for it in found if not it.words]


def has_perl(module):
    return shutil.which("perl") and subprocess.run(
        ["perl", f"-M{module}", "-e", "1"], capture_output=True,
    ).returncode == 0


class Sites:
    """Two sites: one with rules and redirects, and another one to which one of these leads."""

    def __init__(self):
        self.other = Echo({"/x": response(200, b"other")})
        self.ruled = Echo({
            "/robots.txt": response(200, RULES),
            "/x": response(200, b"hello"),
            "/moved": response(302, b"", f"Location: {self.other.url('/x')}"),
            "/moved-to-private": response(302, b"", "Location: /private/x"),
            "/fault": response(500, b"fault"),
        })

    def rows(self):
        """Returns pages, each with the status and the words of its body."""
        rows = {
            "/x": ["200", "hello"], "/private/x": ["403"], "/moved": ["200", "other"], "/moved-to-private": ["403"],
            "/none//y?a=//b": ["200", "/none//y?a=//b", "by", "foobot"], "/fault": ["500", "fault"],
        }
        return {self.ruled.url(target): words for target, words in rows.items()}


def run(client, folder, urls, environment):
    """Returns the words that a client writes for each URL, in order, since some write the status last; and its standard
    error."""
    file = f"{folder}/{client.name.replace(':', '')}{'.go' if client.name == 'go' else ''}"
    with open(file, "w") as it:
        it.write(client.program)
    ran = subprocess.run(
        [*client.words, file, *urls], capture_output=True, timeout=2 * SECONDS, env=environment, cwd=folder,
    )
    return [
        sorted(it.split()) for it in ran.stdout.decode(errors="replace").split(MARK)[:-1]
    ], ran.stderr.decode(errors="replace")


def tried(client, server):
    """Tries a client in both forms, and returns what it did otherwise than it should."""
    sites, faults = Sites(), []
    plain = {name: value for name, value in os.environ.items() if not name.lower().endswith("_proxy")}
    proxied = plain | dict.fromkeys(("http_proxy", "https_proxy"), server.proxy())
    pages = sites.rows()
    with tempfile.TemporaryDirectory() as folder:
        # (Go keeps what it compiled at home)
        home = {"HOME": folder}
        by_proxy = run(client, folder, pages, home | proxied | {"FIELD": ""})
        in_path_form = run(client, folder, [server.url(it) for it in pages], home | plain | {"FIELD": FIELD})
    for form, (found, error) in (("by proxy", by_proxy), ("in path form", in_path_form)):
        if found != [sorted(it) for it in pages.values()]:
            faults.append(f"{client.name} {form}: {short(found)}; {short(error)}")
    expect_gate_alone(client, sites)
    return faults


def expect_gate_alone(client, sites):
    """Fails if a client asked these sites for a page past the gate, or if a denied page was asked for."""
    for site in (sites.ruled, sites.other):
        same((client.name, {agent for agent, _ in site.seen} - {"crawlgate", "foobot"}), (client.name, set()))
        same([target for _, target in site.seen if target.startswith("/private")], [])


def clients_of_http():
    """Each client that is installed fetches pages by `http_proxy` and in path form, is denied, and follows redirects
    back to the gate."""
    there, missing = clients()
    with Front("--fetchers", "16") as server, ThreadPoolExecutor(AT_ONCE) as pool:
        faults = [it for found in pool.map(lambda client: tried(client, server), there) for it in found]
    assert not faults, "; ".join(faults)
    return ", ".join(it.name for it in there) + (f"; not here: {', '.join(missing)}" if missing else "")


def https_goes_not_around():
    """With `https_proxy` a client asks for https by CONNECT, and learns that there is none, before it sends anything
    else."""
    if not shutil.which("curl"):
        raise Skipped("there is no curl")
    with Front() as server:
        environment = os.environ | dict.fromkeys(("http_proxy", "https_proxy"), server.proxy())
        words = ["curl", "--silent", "--verbose", "https://127.0.0.1:1/x"]
        ran = subprocess.run(words, capture_output=True, text=True, timeout=SECONDS, env=environment)
        assert "< HTTP/1.1 405 " in ran.stderr and "< allow: get" in ran.stderr.lower(), ran.stderr
        same((ran.returncode, ran.stdout), (56, ""))


CASES = [clients_of_http, https_goes_not_around]
