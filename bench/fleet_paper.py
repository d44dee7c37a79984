"""The paper part of bench/fleet: what its figures make of a crawl of 100,000,000 pages, each term with its
arithmetic."""
from dataclasses import dataclass

from figures import figure

# the crawl on paper: its pages, pages of a site, gates, fetchers of a gate, and seconds that a fetch takes on the web
PAGES, OF_A_SITE, GATES, FETCHERS, SECONDS = 100_000_000, 10, 16, 64, 1
# what a gate knows at most, and the entries before a base of its journal, of a page and of a robots.txt
KNOWN, FILE, OF_A_PAGE, OF_A_ROBOTS_FILE = 65_536, 500_000, 3, 2
# octets of memory of an entry, by bench/memory
ENTRY = 104


@dataclass
class Terms:
    """What was measured, for each page or site."""

    rate: float
    gate: float
    front: float
    fullest: float
    memory: float
    page: float
    robots: float
    base: float
    audit: float


def measured_rows(terms):
    return [
        ["pages a second and a gate", figure(terms.rate)], ["processor of a gate, us a page", figure(terms.gate)],
        ["processor of haproxy, us a page", figure(terms.front)],
        ["sites of the fullest gate, to the average", f"{terms.fullest:.3f}"],
        ["memory of a gate, octets a site", figure(terms.memory)], ["journal, octets a page", figure(terms.page)],
        ["journal, octets a robots.txt", figure(terms.robots)],
        ["base of a journal's file, octets a site", figure(terms.base)],
        ["audit, entries a second", figure(terms.audit)],
    ]


def paper_rows(terms):
    """Returns the rows of the paper part: what is reckoned, the arithmetic, and what it gives."""
    sites, hour = PAGES // OF_A_SITE, 3_600
    known = GATES * KNOWN / terms.fullest
    entries = PAGES * OF_A_PAGE + sites * OF_A_ROBOTS_FILE
    bases = entries / FILE
    written = (PAGES * terms.page + sites * terms.robots) / 1e9
    of_bases = bases * KNOWN * terms.base / 1e9
    count = f"{PAGES:,}"
    return [
        ["sites in a day", f"{GATES} x {KNOWN:,} / {terms.fullest:.3f}", f"{known:,.0f}"],
        ["hours by sites", f"{sites:,} / {known:,.0f} x 24", figure(sites / known * 24)],
        ["hours by sites, with 100 pages each", f"{PAGES // 100:,} / {known:,.0f} x 24",
         figure(PAGES / 100 / known * 24)],
        ["hours at the measured pace", f"{count} / ({GATES} x {figure(terms.rate)}) / {hour}",
         figure(PAGES / (GATES * terms.rate) / hour)],
        ["hours by fetchers", f"{count} x {SECONDS} s / ({GATES} x {FETCHERS}) / {hour}",
         figure(PAGES * SECONDS / (GATES * FETCHERS) / hour)],
        ["hours of a gate's processor", f"{count} x {figure(terms.gate)} us / {GATES} / {hour}",
         figure(PAGES * terms.gate / 1e6 / GATES / hour)],
        ["hours of haproxy's processor", f"{count} x {figure(terms.front)} us / {hour}",
         figure(PAGES * terms.front / 1e6 / hour)],
        ["journals, GB of entries", f"{count} x {figure(terms.page)} + {sites:,} x {figure(terms.robots)}",
         figure(written)],
        ["journals, GB of bases", f"{bases:,.0f} bases x {KNOWN:,} x {figure(terms.base)}", figure(of_bases)],
        ["memory of a gate, MB", f"{KNOWN:,} x {figure(terms.memory)} + {FILE:,} x {ENTRY}",
         figure((KNOWN * terms.memory + FILE * ENTRY) / 1e6)],
        ["hours of audits side by side", f"{entries:,} / {figure(terms.audit)} / {hour}",
         figure(entries / terms.audit / hour)],
    ]
