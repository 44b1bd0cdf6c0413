"""What the scripts of this folder share on TLS: certificates, and the two ends of stunnel between a primary and its standby."""

import contextlib
import socket
import ssl
import subprocess
import time

from serving import TOP, check, free_port


def openssl(*words):
    subprocess.run(["openssl", *map(str, words)], check=True, capture_output=True)


class Certificates:
    """An authority with a certificate for the server and one for a client, and a client's of another authority."""

    def __init__(self, root):
        self.root = root
        self.authority("clients")
        self.authority("others")
        self.signed("server", "clients")
        self.signed("eve", "clients")
        self.signed("mallory", "others")

    def authority(self, name):
        words = ["req", "-x509", "-newkey", "ec", "-pkeyopt", "ec_paramgen_curve:prime256v1", "-nodes", "-days", 2]
        openssl(*words, "-subj", f"/CN={name}", "-keyout", self.root / f"{name}.key", "-out", self.root / f"{name}.pem")

    def signed(self, name, authority):
        key, request, one = (self.root / f"{name}.{end}" for end in ("key", "csr", "crt"))
        words = ["req", "-newkey", "ec", "-pkeyopt", "ec_paramgen_curve:prime256v1", "-nodes"]
        openssl(*words, "-subj", f"/CN={name}", "-keyout", key, "-out", request)
        by = ["-CA", self.root / f"{authority}.pem", "-CAkey", self.root / f"{authority}.key", "-CAcreateserial"]
        openssl("x509", "-req", "-in", request, *by, "-days", 2, "-out", one)
        (self.root / f"{name}.pem").write_bytes(one.read_bytes() + key.read_bytes())

    def context(self, name):
        """What a client with this certificate, or with none, connects by."""
        context = ssl.create_default_context(cafile=self.root / "clients.pem")
        context.check_hostname = False
        if name:
            context.load_cert_chain(self.root / f"{name}.pem")
        return context

    def of_ends(self):
        """Those of the two ends between a primary and its standby, each with what the other end knows it by."""
        for name in ("primary", "standby"):
            self.signed(name, "clients")
            (self.root / f"{name}-end.pem").write_bytes((self.root / f"{name}.crt").read_bytes())


@contextlib.contextmanager
def stunnel(name, root, changes, idle):
    """Runs stunnel on a copy of one of the files of contrib/, with the paths, ports and idle time-out of here."""
    text = (TOP / "contrib" / f"stunnel-{name}.conf").read_text()
    changes = {"/etc/cqe/": f"{root}/", "= 40": f"= {idle}", **changes}
    for old, new in changes.items():
        check(old in text, f"{name}: no {old} in its file")
        text = text.replace(old, new)
    path = root / f"{name}.conf"
    path.write_text(text)
    process = subprocess.Popen(["stunnel", path], stdout=subprocess.DEVNULL, stderr=subprocess.DEVNULL)
    try:
        yield
    finally:
        process.terminate()
        process.wait(timeout=30)


@contextlib.contextmanager
def ends(root, standby, own="primary", idle=40):
    """Both ends between a primary, with this certificate, and its standby, and the port at which the primary speaks to it."""
    outer, inner = free_port(), free_port()
    far = {"accept = 7444": f"accept = 127.0.0.1:{outer}", "7008": str(standby.port)}
    near = {"standby.example:7444": f"127.0.0.1:{outer}", "7008": str(inner), "/primary.pem": f"/{own}.pem"}
    with stunnel("standby", root, far, idle), stunnel("primary", root, near, idle):
        end = time.monotonic() + 30
        for port in (outer, inner):
            while not listens(port):
                check(time.monotonic() < end, "stunnel doesn't listen")
                time.sleep(0.1)
        yield inner


def listens(port):
    with contextlib.suppress(OSError), socket.create_connection(("127.0.0.1", port), timeout=30):
        return True
    return False
