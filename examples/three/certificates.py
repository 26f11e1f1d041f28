"""The certificates of three machines, made by the command openssl: an authority of their own, and
of each machine one of its member of etcd and one of its companion; and how it uses them."""
import pathlib
import secrets
import shutil
import ssl
import subprocess
import time

AUTHORITY_DAYS, DAYS = 7300, 3650
APART = 30  # days between the ends of two certificates, so that they do not end together
WARNED = 30  # days before its end, from which on it is reported
DAY = 86_400  # seconds
NEW_KEY = ['-newkey', 'ec', '-pkeyopt', 'ec_paramgen_curve:prime256v1', '-nodes']


def openssl(*words: str | pathlib.Path) -> str:
    done = subprocess.run(['openssl', *words], capture_output=True, text=True)
    if done.returncode:
        raise OSError(f'openssl: {done.stderr.strip()[-300:]}')
    return done.stdout


def make_authority(folder: pathlib.Path) -> None:
    """Makes the authority's certificate, and its key, which stays in this folder: who has it can
    make more. With the same key, the certificates of before are good under a new one too."""
    key = folder / 'authority.key'
    by = ['-key', key] if key.exists() else [*NEW_KEY, '-keyout', key]
    openssl('req', '-x509', '-days', str(AUTHORITY_DAYS), *by, '-out', folder / 'authority.pem',
            '-subj', '/CN=three machines')


def make_certificate(authority: pathlib.Path, into: pathlib.Path, name: str, days: int,
                     subject: str, *more: str) -> None:
    """Makes a certificate of the authority in a folder."""
    extensions = [word for it in more for word in ('-addext', it)]
    openssl('req', '-x509', '-days', str(days), *NEW_KEY,
            '-CA', authority / 'authority.pem', '-CAkey', authority / 'authority.key',
            '-keyout', into / f'{name}.key', '-out', into / f'{name}.pem', '-subj', subject,
            '-addext', 'basicConstraints=critical,CA:FALSE', *extensions)


def make_all(authority: pathlib.Path, folders: dict[pathlib.Path, str],
             is_renewed: bool = False) -> None:
    """Makes what each machine needs, in its folder by its address. The member's is a client's too,
    as it hands JSON on to itself; the companion's has no common name, since etcd refuses one where
    it wants a user beside JSON."""
    if is_renewed and not (authority / 'authority.key').exists():
        raise OSError(f'{authority} has no authority.key')
    authority.mkdir(mode=0o700, parents=True, exist_ok=True)
    if is_renewed or not (authority / 'authority.pem').exists():
        make_authority(authority)
    if not (authority / 'password').exists():
        (authority / 'password').write_text(secrets.token_hex(16) + '\n')
    for nth, (folder, address) in enumerate(folders.items()):
        folder.mkdir(mode=0o700, parents=True, exist_ok=True)
        days = DAYS - 2 * APART * nth
        make_certificate(authority, folder, 'member', days, '/CN=member',
                         'extendedKeyUsage=serverAuth,clientAuth',
                         f'subjectAltName=IP:127.0.0.1,IP:{address}')
        make_certificate(authority, folder, 'companion', days - APART, '/O=companion',
                         'extendedKeyUsage=clientAuth')
        for it in 'authority.pem', 'password':
            shutil.copy(authority / it, folder / it)


class Secured:
    """TLS to a member whose certificate is of an authority, with a certificate of one's own. What
    is renewed on the disk is taken for the connections from then on."""

    def __init__(self, authority: pathlib.Path, certificate: pathlib.Path, key: pathlib.Path):
        self.authority, self.own = authority, (certificate, key)
        self.context = ssl.create_default_context(cafile=authority)
        self.context.load_cert_chain(*self.own)
        self.loaded: dict[pathlib.Path, int] = {}
        self.ends: dict[str, float] = {}  # of all certificates beside it, the member's too

    def renew(self) -> None:
        """Takes what has changed on the disk, once the certificate and the key belong together."""
        files = [*self.own[0].parent.glob('*.pem'), self.authority, *self.own]
        found = {it: it.stat().st_mtime_ns for it in files}
        if found != self.loaded:
            ssl.SSLContext(ssl.PROTOCOL_TLS_CLIENT).load_cert_chain(*self.own)
            self.context.load_cert_chain(*self.own)
            self.context.load_verify_locations(self.authority)
            self.ends = {it.stem: end_of(it) for it in found if it.suffix == '.pem'}
            self.loaded = found

    def days(self) -> dict[str, int]:
        """Days until each certificate ends."""
        return {name: int((end - time.time()) // DAY) for name, end in self.ends.items()}


def end_of(certificate: pathlib.Path) -> float:
    text = openssl('x509', '-noout', '-enddate', '-in', certificate)
    return ssl.cert_time_to_seconds(text.strip().removeprefix('notAfter='))
