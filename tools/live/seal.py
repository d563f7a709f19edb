"""Keys and certificates of an authority of a check's own."""
DAYS = 2


class Seal:
    """An authority, and the certificates that it signed, in a folder: `NAME.pem` and `NAME.key`."""

    def __init__(self, processes, *names):
        self.processes = processes
        self.sign_itself("authority")
        for name in names:
            self.sign(name)
        self.join("proxy")

    def path(self, name):
        return self.processes.folder / name

    def openssl(self, *words):
        self.processes.run("openssl", *words)

    def request(self, name):
        """The words that make a key, and what is asked to be signed."""
        return "req", "-newkey", "rsa:2048", "-nodes", "-subj", f"/CN={name}", "-keyout", self.path(f"{name}.key")

    def sign_itself(self, name):
        self.openssl(*self.request(name), "-x509", "-days", DAYS, "-out", self.path(f"{name}.pem"))

    def sign(self, name):
        """A certificate for a name."""
        self.openssl(*self.request(name), "-out", self.path(f"{name}.csr"))
        authority = "-CA", self.path("authority.pem"), "-CAkey", self.path("authority.key"), "-CAcreateserial"
        self.openssl("x509", "-req", "-in", self.path(f"{name}.csr"), *authority, "-days", DAYS, "-out", self.path(f"{name}.pem"))

    def join(self, name):
        """Puts the key behind the certificate, as haproxy has both."""
        with open(self.path(f"{name}.pem"), "a") as certificate:
            certificate.write(self.path(f"{name}.key").read_text())

    def words_of(self, name):
        """The options of Open vSwitch's programs that name these files."""
        return f"--private-key={self.path(f'{name}.key')}", f"--certificate={self.path(f'{name}.pem')}", f"--ca-cert={self.path('authority.pem')}"
