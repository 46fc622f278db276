"""Checkpoints, notes and keys, written after the standards (C2SP signed-note, tlog-checkpoint and tlog-cosignature;
RFC 8032) with nothing of the program's own: demonstration keys by HMAC, and keys that a seed makes (of
conformance/suite). """
import hmac

from suite import notes
from suite.keys import SeedKey, cosigned_message, line_of, sum_of  # noqa: F401

from .tree import sha

ORIGIN = 'example.com/log'


# Texts that are signed

def key_id(name, secret):
    """The identifier of a demonstration key."""
    return sha(name.encode() + b'\n\xfftlog-demo-hmac-sha256' + sha(secret.encode()))[:4]


def signature(name, secret, message, before=b''):
    """The signature line of a demonstration key."""
    mark = hmac.new(secret.encode(), message, 'sha256').digest()
    return line_of(name, key_id(name, secret), before + mark)


def checkpoint(size, head, origin=ORIGIN):
    """The text of a checkpoint."""
    return notes.checkpoint(origin, size, head)


def note(size, head, origin=ORIGIN, secret='s', name=None):
    """A signed checkpoint."""
    signed = checkpoint(size, head, origin)
    return signed + b'\n' + signature(name or origin, secret, signed)


def cosignature(name, secret, seconds, signed):
    """The cosignature line of a checkpoint's text."""
    return signature(name, secret, cosigned_message(signed, seconds), seconds.to_bytes(8, 'big'))
