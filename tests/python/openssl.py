"""The command openssl, and what it says of files."""
import datetime
import subprocess
from typing import Any, Optional


def openssl(*words: str, **options: Any) -> bytes:
    """What openssl prints, as octets."""
    return subprocess.run(["openssl", *words], check=True, capture_output=True, **options).stdout


def openssl_in(folder: str, *words: str) -> str:
    """What openssl prints in a folder, as a text."""
    return openssl(*words, cwd=folder).decode()


def certify(request: str, issuer: Optional[str], serial: str, *words: str, config: str = "", days: str = "365",
            digest: str = "-sha256") -> None:
    """Makes a certificate of REQUEST.csr by ISSUER.pem and ISSUER.key, or by its own key, with the section `extensions`
    of REQUEST.cnf, or of another file."""
    signer = ["-CA", issuer + ".pem", "-CAkey", issuer + ".key"] if issuer else ["-signkey", request + ".key"]
    openssl("x509", "-req", "-in", request + ".csr", *signer, "-set_serial", serial, "-days", days,
            *([digest] if digest else []), "-extfile", config or request + ".cnf", "-extensions", "extensions", *words)


def said_of(path: str, *words: str, kind: str = "x509") -> str:
    """What `openssl x509`, or crl, says of a file in DER after the sign of equality."""
    return openssl(kind, "-inform", "DER", "-in", path, "-noout", *words).decode().strip().split("=", 1)[1]


def text_of(path: str, kind: str = "x509") -> str:
    """All that it says of a file in DER."""
    return openssl(kind, "-inform", "DER", "-in", path, "-noout", "-text").decode()


def key_identifier(path: str) -> str:
    """The subject key identifier of a certificate in DER (RFC 6487 4.8.2)."""
    text = openssl("x509", "-inform", "DER", "-in", path, "-noout", "-ext", "subjectKeyIdentifier").decode()
    return text.splitlines()[1].strip()


def moment(text: str) -> datetime.datetime:
    """A time as it prints it."""
    return datetime.datetime.strptime(text, "%b %d %H:%M:%S %Y GMT").replace(tzinfo=datetime.timezone.utc)


def signing_time(path: str) -> datetime.datetime:
    """The signing time of a signed object in DER."""
    text = openssl("cms", "-cmsout", "-print", "-inform", "DER", "-in", path).decode()
    return moment(text.split("signingTime", 1)[1].split("UTCTIME:", 1)[1].splitlines()[0].strip())
