"""Cases of checks/fleet about Prometheus' configuration, its alerts, and the dashboard for Grafana."""
import json
import os
import re
import shutil
import subprocess
import tempfile

from fleet import EXAMPLE, Fleet, Sites, write_configuration
from front import absolute
from lib.cases import Skipped, same
from lib.server import SECONDS

ALERTS = f"{os.path.dirname(os.path.realpath(__file__))}/alerts_test.yml"
COLUMNS = 24


def promtool(*words, folder=EXAMPLE):
    """Has promtool check something, which it must take."""
    if not shutil.which("promtool"):
        raise Skipped("there is no promtool")
    ran = subprocess.run(["promtool", *words], cwd=folder, capture_output=True, text=True, timeout=SECONDS)
    assert ran.returncode == 0, ran.stdout + ran.stderr


def read(path):
    with open(path, encoding="utf-8") as file:
        return file.read()


def example(name):
    return read(f"{EXAMPLE}/{name}")


def configuration_is_taken():
    """promtool takes the configuration, also with the lines for gates behind TLS. It names the ports that haproxy.cfg
    has."""
    promtool("check", "config", "prometheus.yml")
    begin = "  #- job_name: crawlgate-tls\n"
    text = example("prometheus.yml")
    lines = re.findall(r"(?m)^  #.*\n", text[text.index(begin) :])
    with tempfile.TemporaryDirectory() as folder:
        shutil.copy(f"{EXAMPLE}/alerts.yml", folder)
        changes = {it: it.replace("  #", "  ", 1) for it in lines} | {"/etc/prometheus/": f"{folder}/"}
        path = write_configuration(folder, "prometheus.yml", changes)
        for name in ("front.pem", "fleet.pem"):
            with open(f"{folder}/{name}", "w"):
                pass
        promtool("check", "config", path)
    front = dict(re.findall(r"(?m)^  #?server (gate\d\d) (\S+) ", example("haproxy.cfg")))
    scraped = re.findall(r'targets: \["([^"]+)"\], labels: \{gate: (\w+)\}', text)
    same({gate: target for target, gate in scraped}, front)
    assert re.search(r'targets: \["([^"]+)"\]\n', text)[1] in example("haproxy.cfg")


def alerts_fire():
    """Each alert fires for a gate that has its fault, and for no other."""
    promtool("test", "rules", ALERTS)
    tested = set(re.findall(r"alertname: (\w+)\n", read(ALERTS)))
    same(tested, set(re.findall(r"alert: (\w+)\n", example("alerts.yml"))))


def expressions():
    """Returns each expression of the dashboard."""
    return [target["expr"] for panel in json.loads(example("dashboard.json"))["panels"] for target in panel["targets"]]


def dashboard_is_whole():
    """Each panel has a number and a place of its own, and an expression that Prometheus reads."""
    panels = json.loads(example("dashboard.json"))["panels"]
    same(len({it["id"] for it in panels}), len(panels))
    places = [(it["gridPos"]["x"] + x, it["gridPos"]["y"] + y) for it in panels for x, y in cells_of(it["gridPos"])]
    same((len(places), max(x for x, _ in places)), (len(set(places)), COLUMNS - 1))
    rules = [{"record": f"rule:{at}", "expr": it} for at, it in enumerate(expressions())]
    with tempfile.NamedTemporaryFile("w", suffix=".yml") as file:
        json.dump({"groups": [{"name": "dashboard", "rules": rules}]}, file)
        file.flush()
        promtool("check", "rules", file.name)


def cells_of(place):
    return [(x, y) for x in range(place["w"]) for y in range(place["h"])]


def numbers_are_there():
    """Alerts and dashboard name only numbers that a gate or haproxy has, with labels that it gives them."""
    sites = Sites(12)
    used = set(re.findall(r"\b(?:crawlgate|haproxy)_\w+", example("alerts.yml") + " ".join(expressions())))
    with Fleet() as fleet:
        for host in sites.hosts:
            same(fleet.front.ask(absolute(sites.url(host))).status, 200)
        said = ["\n".join(it.metrics() for it in fleet.gates), fleet.front.metrics()]
        names = set(re.findall(r"(?m)^((?:crawlgate|haproxy)_\w+)", "\n".join(said)))
        same(sorted(used - names), [])
        assert re.search(r'(?m)^haproxy_server_status\{proxy="gates",server="gate03",state="UP"\} 1$', said[1])
        row = r'(?m)^haproxy_server_http_responses_total\{proxy="gates",server="gate03",code="2xx"\} \d+$'
        assert re.search(row, said[1])
        starts = sum(int(it) for it in re.findall(r"(?m)^crawlgate_starts_total (\d+)$", said[0]))
        same(starts, len(sites.hosts))


CASES = [configuration_is_taken, alerts_fire, dashboard_is_whole, numbers_are_there]
