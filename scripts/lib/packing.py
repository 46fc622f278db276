"""Archives and packages of files, whose bytes depend on nothing but the files and one moment: a tar, a Debian
package, and an image of the Open Container Initiative.

Files are a dictionary from a path to an Entry.
"""
import gzip
import hashlib
import io
import json
import os
import posixpath
import subprocess
import tarfile
import tempfile

LAYER, CONFIG, MANIFEST = (f'application/vnd.oci.image.{kind}+{form}' for kind, form in (
    ('layer.v1.tar', 'gzip'), ('config.v1', 'json'), ('manifest.v1', 'json')))


class Entry:
    """A file of some bytes that may be run or not, or a link to a path."""

    def __init__(self, content=b'', may_run=False, link=None):
        self.content, self.mode, self.link = content, 0o755 if may_run else 0o644, link


def folders_of(files):
    """The folders above these files, each after those above it."""
    found = set()
    for path in files:
        while path := posixpath.dirname(path):
            found.add(path)
    return sorted(found)


def info_of(path, kind, mode, epoch):
    info = tarfile.TarInfo(path)
    info.type, info.mode, info.mtime, info.uname, info.gname = kind, mode, epoch, 'root', 'root'
    return info


def tar(files, epoch):
    """The bytes of an archive of these files and the folders above them, in the order of their names."""
    raw = io.BytesIO()
    with tarfile.open(fileobj=raw, mode='w', format=tarfile.USTAR_FORMAT) as archive:
        for path in folders_of(files):
            archive.addfile(info_of(path, tarfile.DIRTYPE, 0o755, epoch))
        for path, entry in sorted(files.items()):
            info = info_of(path, tarfile.SYMTYPE if entry.link else tarfile.REGTYPE,
                           0o777 if entry.link else entry.mode, epoch)
            info.linkname, info.size = entry.link or '', len(entry.content)
            archive.addfile(info, io.BytesIO(entry.content))
    return raw.getvalue()


def zipped(raw):
    """The bytes compressed by gzip, without a time and a name."""
    return gzip.compress(raw, 9, mtime=0)


def unpacked(files, folder, epoch):
    """Writes the files into a folder, each with this time."""
    for path, entry in files.items():
        place = f'{folder}/{path}'
        os.makedirs(os.path.dirname(place), exist_ok=True)
        if entry.link:
            os.symlink(entry.link, place)
        else:
            with open(place, 'wb') as file:
                file.write(entry.content)
            os.chmod(place, entry.mode)
    for where, _, names in os.walk(folder, topdown=False):
        for name in names:
            os.utime(f'{where}/{name}', (epoch, epoch), follow_symlinks=False)
        os.utime(where, (epoch, epoch))
        os.chmod(where, 0o755)


def deb(files, control, scripts, epoch, out):
    """Writes a Debian package of these files: `control` is its description, without the size that it installs, and
    `scripts` are what dpkg runs, by name."""
    sums = ''.join(f'{hashlib.md5(entry.content).hexdigest()}  {path}\n'
                   for path, entry in sorted(files.items()) if not entry.link)
    size = sum(-(-len(entry.content) // 1024) for entry in files.values())
    described = control.replace('Description:', f'Installed-Size: {size}\nDescription:')
    given = {'control': Entry(described.encode()), 'md5sums': Entry(sums.encode()),
             **{name: Entry(text.encode(), True) for name, text in scripts.items()}}
    with tempfile.TemporaryDirectory() as folder:
        unpacked({**files, **{f'DEBIAN/{name}': entry for name, entry in given.items()}}, folder, epoch)
        # (how many threads compress would show in the bytes)
        subprocess.run(['dpkg-deb', '--root-owner-group', '-Zxz', '--threads-max=1', '--build', folder, out],
                       check=True, stdout=subprocess.DEVNULL, env={**os.environ, 'SOURCE_DATE_EPOCH': str(epoch)})


def compact(value):
    return json.dumps(value, separators=(',', ':')).encode()


def image(files, config, name, epoch):
    """The bytes of an archive with an image layout (OCI image-spec 1.0): a layer of these files, and how it is run."""
    blobs = {'oci-layout': Entry(compact({'imageLayoutVersion': '1.0.0'}))}

    def blob(content, kind, **more):
        digest = hashlib.sha256(content).hexdigest()
        blobs[f'blobs/sha256/{digest}'] = Entry(content)
        return {'mediaType': kind, 'digest': f'sha256:{digest}', 'size': len(content), **more}

    raw = tar(files, epoch)
    layers = {'type': 'layers', 'diff_ids': [f'sha256:{hashlib.sha256(raw).hexdigest()}']}
    described = blob(compact({**config, 'architecture': 'amd64', 'os': 'linux', 'rootfs': layers}), CONFIG)
    manifest = compact({'schemaVersion': 2, 'mediaType': MANIFEST, 'config': described,
                        'layers': [blob(zipped(raw), LAYER)]})
    named = blob(manifest, MANIFEST, annotations={'org.opencontainers.image.ref.name': name})
    blobs['index.json'] = Entry(compact({'schemaVersion': 2, 'manifests': [named]}))
    return tar(blobs, epoch)
