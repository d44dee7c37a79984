"""What checks of https need on the loopback: certificates, contexts of TLS for sites, and programs that open TLS for
crawlgate: haproxy by packaging/haproxy.cfg, and stand_in.py, which does the same on each machine."""
import contextlib
import os
import shutil
import socket
import ssl
import subprocess
import sys
import time

from lib.program import ROOT
from lib.sites import free_port

CONFIGURATION = f"{ROOT}/packaging/haproxy.cfg"
AUTHORITIES = "/etc/ssl/certs/ca-certificates.crt"
ADDRESS = "127.0.0.1:3131"
HAPROXY = shutil.which("haproxy", path=f"{os.environ.get('PATH', '')}:/usr/sbin")
# a name that a hosts file gives two addresses
TWO = "two.example"
# the certificates, each with its names, its days, and whether the authority of the test signs it
CERTIFICATES = {
    "good": (["localhost", TWO], 2, True),
    "self-signed": (["localhost", TWO], 2, False),
    "of another name": (["other.example"], 2, True),
    "expired": (["localhost"], -1, True),
}


def missing(*names):
    """Returns why no crawl of https can be tried here, if so: it needs openssl, and programs of these names."""
    programs = {"haproxy": HAPROXY, "openssl": shutil.which("openssl")}
    return next((f"there is no {name}" for name in ("openssl", *names) if not programs[name]), None)


def openssl(folder, *words):
    subprocess.run(["openssl", *words], cwd=folder, check=True, capture_output=True)


def make_certificates(folder):
    """Makes an authority, and the certificates of CERTIFICATES, and returns a context of TLS for each."""
    key = ["-newkey", "ec", "-pkeyopt", "ec_paramgen_curve:prime256v1", "-nodes"]
    openssl(folder, "req", "-x509", *key, "-keyout", "ca.key", "-out", "ca.pem", "-subj", "/CN=authority", "-days", "2")
    contexts = {}
    for kind, (names, days, is_signed) in CERTIFICATES.items():
        alternatives = "subjectAltName=" + ",".join(f"DNS:{name}" for name in names)
        made = ["-keyout", f"{kind}.key", "-subj", "/CN=site", "-addext", alternatives]
        if is_signed:
            openssl(folder, "req", *key, *made, "-out", f"{kind}.csr")
            signer = ["-CA", "ca.pem", "-CAkey", "ca.key", "-CAcreateserial", "-copy_extensions", "copy"]
            openssl(folder, "x509", "-req", *signer, "-in", f"{kind}.csr", "-out", f"{kind}.pem", "-days", str(days))
        else:
            openssl(folder, "req", "-x509", *key, *made, "-out", f"{kind}.pem", "-days", str(days))
        contexts[kind] = context_of(folder, kind)
    return contexts


def context_of(folder, kind):
    """Returns a context of TLS with one of the certificates."""
    context = ssl.SSLContext(ssl.PROTOCOL_TLS_SERVER)
    context.load_cert_chain(f"{folder}/{kind}.pem", f"{folder}/{kind}.key")
    return context


def old_context(folder):
    """Returns a context with the good certificate that knows only TLS 1.1, whatever the system's policy is."""
    context = context_of(folder, "good")
    context.set_ciphers("DEFAULT:@SECLEVEL=0")
    context.minimum_version = context.maximum_version = ssl.TLSVersion.TLSv1_1
    return context


def configure(folder, port):
    """Writes the configuration that is shipped, with the port and the authority of the test."""
    with open(CONFIGURATION) as file:
        text = file.read()
    changes = {f"bind {ADDRESS} ": f"bind 127.0.0.1:{port} ", AUTHORITIES: f"{folder}/ca.pem"}
    for old, new in changes.items():
        assert text.count(old) == 1, f"{CONFIGURATION} has {old!r} {text.count(old)} times"
        text = text.replace(old, new)
    with open(f"{folder}/haproxy.cfg", "w") as file:
        file.write(text)


def wait_for(port):
    """Waits until a port takes connections."""
    for _ in range(100):
        with contextlib.suppress(OSError):
            return socket.create_connection(("127.0.0.1", port)).close()
        time.sleep(0.1)


@contextlib.contextmanager
def ended(process):
    """A process that ends with the check."""
    try:
        yield process
    finally:
        process.terminate()
        process.wait()


@contextlib.contextmanager
def by_haproxy(folder):
    """haproxy by that configuration, and its address."""
    port = free_port()
    configure(folder, port)
    with open(f"{folder}/haproxy.log", "wb") as log:
        process = subprocess.Popen([HAPROXY, "-f", f"{folder}/haproxy.cfg"], stdout=log, stderr=log)
    with ended(process):
        wait_for(port)
        yield f"127.0.0.1:{port}"


@contextlib.contextmanager
def by_stand_in(folder):
    """stand_in.py, and its address."""
    words = [sys.executable, f"{ROOT}/checks/lib/stand_in.py", f"{folder}/ca.pem"]
    with open(f"{folder}/stand_in.log", "wb") as log:
        process = subprocess.Popen(words, stdout=subprocess.PIPE, stderr=log, text=True)
    with ended(process), process.stdout:
        yield process.stdout.readline().strip()
