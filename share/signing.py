"""Signs requests to an object store anew, for another host than the one that they name (AWS Signature Version 4).

`tlog` signs the address that it is run with, the tunnel's. A store wants its own name signed. So a request's
signature is first checked, and one that isn't by the credentials of this run goes on as it is: whoever else asks at
the tunnel's port has nothing signed for him.
"""
import hashlib
import hmac
import os
import re

FORM = re.compile(r'AWS4-HMAC-SHA256 Credential=([^/,]+)/([0-9]{8}/[^/,]+/s3/aws4_request), ?'
                  r'SignedHeaders=([a-z0-9;-]+), ?Signature=([0-9a-f]{64})')


def secret_of(path):
    """The name and the secret of an access key: the two lines of a file, or what the environment has if no file is
    given. They are empty if there are none, which `tlog` reports."""
    if path is None:
        return os.environ.get('AWS_ACCESS_KEY_ID', ''), os.environ.get('AWS_SECRET_ACCESS_KEY', '')
    try:
        with open(path, encoding='utf-8', newline='\n') as file:
            lines = file.read(65_536).split('\n')
    except (OSError, UnicodeDecodeError):
        return '', ''
    return (lines[0], lines[1]) if len(lines) > 1 else ('', '')


class Signer:
    """Signs by one access key."""

    def __init__(self, name, secret):
        self.name, self.secret = name, secret

    def signature(self, method, path, fields, scope, names):
        """The signature of a request without a query; its fields have names in lower case."""
        lines = [f'{name}:{fields.get(name, "")}' for name in names]
        request = '\n'.join([method, path, '', *lines, '', ';'.join(names), fields.get('x-amz-content-sha256', '')])
        digest = hashlib.sha256(request.encode('latin-1')).hexdigest()
        text = f'AWS4-HMAC-SHA256\n{fields.get("x-amz-date", "")}\n{scope}\n{digest}'
        key = b'AWS4' + self.secret.encode()
        for word in scope.split('/'):
            key = hmac.digest(key, word.encode(), 'sha256')
        return hmac.new(key, text.encode(), 'sha256').hexdigest()

    def signed_for(self, host, method, path, fields):
        """The fields of a request, signed for this host; they stay as they are if they aren't signed by this key."""
        found = FORM.fullmatch(fields.get('authorization', ''))
        if not found or not self.secret or found[1] != self.name:
            return fields
        scope, names = found[2], found[3].split(';')
        if not hmac.compare_digest(self.signature(method, path, fields, scope, names), found[4]):
            return fields
        fields = {**fields, 'host': host}
        mark = self.signature(method, path, fields, scope, names)
        words = f'Credential={self.name}/{scope},SignedHeaders={found[3]},Signature={mark}'
        return {**fields, 'authorization': f'AWS4-HMAC-SHA256 {words}'}
