"""How long certificates and lists of revoked ones last, and which are revoked."""
import datetime
import os
import re

from cryptography import x509

from .base import tell

WARNED = 7                      # days before an end at which it is told
DAY = 86400
CERTIFICATE, LIST = b'CERTIFICATE', b'X509 CRL'


def blocks(path, kind):
    with open(path, 'rb') as file:
        text = file.read()
    return re.findall(b'-----BEGIN %b-----.*?-----END %b-----' % (kind, kind), text, re.S)


def ends_of(path):
    """When the first of the certificates, or of the lists, in a file ends, in UTC."""
    ends = [x509.load_pem_x509_certificate(block).not_valid_after
            for block in blocks(path, CERTIFICATE)]
    ends += [x509.load_pem_x509_crl(block).next_update for block in blocks(path, LIST)]
    return min((end for end in ends if end), default=None)


class Papers:
    """The files that the tables name."""

    def __init__(self):
        self.paths, self.ends, self.told = [], {}, None

    def read(self, tables):
        self.paths = list(dict.fromkeys(
            table[key] for table in tables if table.get('tls')
            for key in ('certificate', 'ca', 'crl') if table.get(key)))
        self.ends = {}
        for path in self.paths:
            try:
                self.ends[path] = ends_of(path)
            except (OSError, ValueError) as fault:
                tell('%s: %s', path, fault)

    def days_left(self):
        today = datetime.datetime.utcnow()
        return {path: (end - today).total_seconds() / DAY for path, end in self.ends.items() if end}

    def warnings(self):
        """What has ended, and what soon will."""
        for path, left in self.days_left().items():
            if left <= 0:
                yield True, '%s HAS ENDED: whoever needs it is refused' % path
            elif left <= WARNED:
                yield False, '%s ends in %.1f days' % (path, left)

    def watch(self):
        """Once a day what ends, and at once what has ended since."""
        told = {text.split(' in ')[0] for _, text in self.warnings()}, datetime.date.today()
        if told != self.told:
            self.told = told
            for _, text in self.warnings():
                tell('%s', text)

    @staticmethod
    def revoked(path):
        """The serial numbers of a list; none where it can't be read, as handshakes then fail."""
        if not path:
            return frozenset()
        try:
            return frozenset(entry.serial_number for block in blocks(path, LIST)
                             for entry in x509.load_pem_x509_crl(block))
        except (OSError, ValueError):
            return frozenset()


def readable_by_all(path):
    """Whether a secret is open to each account."""
    try:
        return bool(os.stat(path).st_mode & 0o004)
    except OSError:
        return False
