#!/usr/bin/env python3
"""Writes what `INFO` says of a `crawlgate serve` for the textfile collector of Prometheus' node exporter.

usage: prometheus.py PORT|SOCKET FILE.prom

FILE.prom is written beside its place and renamed into it, as the collector wants it. Run it each minute, by cron or a timer.
Where the server does not answer the file has only `crawlgate_up 0`; standard error says why, and the status is 1. At the
port of --seal-port, or the socket of --seal-socket, it waits for no client.
"""
import os
import sys

from crawlgate import Gate, Refused

# how long the server may take, in seconds
SECONDS = 30

# the numbers that only grow, and what each says
COUNTERS = {
    "ever": ("entries_total", "Entries of the history, the sealed ones among them."),
    "starts": ("starts_total", "Fetches of pages that were started."),
    "connections": ("connections_total", "Connections of clients that were taken."),
    "denied_line": ("denied_by_lines_total", "Asks and starts that a line of a robots.txt denied."),
    "denied_closed": ("denied_closed_total", "Asks and starts at closed sites."),
    "denied_unknown": ("denied_unknown_total", "Asks and starts at sites without an answer."),
    "denied_expired": ("denied_expired_total", "Asks and starts at sites whose answer was too old."),
    "denied_spent": ("denied_spent_total", "Starts without an unspent permit."),
    "failed_pages": ("failed_pages_total", "Fetches of pages that gave no response."),
    "failed_robots": ("failed_robots_total", "Fetches of robots.txt files that gave no response or a server's error."),
    "robots_no_name": ("robots_no_name_total", "Those of them whose host has no address."),
    "robots_refused": ("robots_refused_total", "Those of them that no server accepted, or to which there was no route."),
    "robots_timed_out": ("robots_timed_out_total", "Those of them that a time limit ended."),
    "robots_tls": ("robots_tls_total", "Those of them without a TLS connection, or a program that opens one."),
    "robots_status": ("robots_status_total", "Those of them with a status of 500 to 599."),
    "robots_other": ("robots_other_total", "Those of them that failed for another cause."),
    "journal_octets": ("journal_octets_total", "Octets written to the journal."),
    "journal_syncs": ("journal_syncs_total", "Syncs of the journal."),
}
GAUGES = {
    "entries": ("entries", "Entries of the history since the last seal."),
    "permits": ("permits", "Permits that are out and not spent."),
    "running": ("running", "Fetches of pages under way."),
    "turns": ("turns", "Fetches of robots.txt files under way."),
    "authorities": ("authorities", "Authorities that have an answer or a turn."),
    "room": ("room", "Entries that the history has room for."),
    "clients": ("clients", "Clients that are being served."),
    "waiting": ("waiting", "Clients that wait for a worker."),
    "slowest_sync": ("journal_slowest_sync_microseconds", "The longest sync of the journal, in microseconds."),
}


def lines_of(info):
    """Returns the lines of the exposition format for these numbers."""
    for kind, rows in ("counter", COUNTERS), ("gauge", GAUGES):
        for key, (name, about) in rows.items():
            yield f"# HELP crawlgate_{name} {about}\n# TYPE crawlgate_{name} {kind}\ncrawlgate_{name} {info[key]}\n"


def read_of(place):
    """Returns the text of a server's numbers, and why there are none, if there are none."""
    text, fault = "", None
    try:
        with Gate.at(place, timeout=SECONDS, away=0) as gate:
            text = "".join(lines_of(gate.info()))
    except (OSError, Refused) as error:
        fault = error
    about = "Whether the server answered."
    up = 0 if fault else 1
    return f"# HELP crawlgate_up {about}\n# TYPE crawlgate_up gauge\ncrawlgate_up {up}\n{text}", fault


def main(given):
    if len(given) != 2 or not ("/" in given[0] or given[0].isdigit()):
        sys.exit("usage: prometheus.py PORT|SOCKET FILE.prom")
    place, path = given
    text, fault = read_of(place)
    with open(f"{path}.new", "w", encoding="utf-8") as file:
        file.write(text)
    os.replace(f"{path}.new", path)
    return f"prometheus.py: no answer at {place}: {fault}" if fault else 0


if __name__ == "__main__":
    sys.exit(main(sys.argv[1:]))
