#!/usr/bin/env -S python3 -B
"""Ceph's gateway, a store of the S3 kind, for tests: one monitor, one object server and one gateway at free ports of
this machine, whose data are in memory. The folder has its settings, its logs and, in `credentials`, its user's key.
  tests/lib/gateway.py start FOLDER   starts it, with buckets `logs` and `full` whose logs all may read; prints its URL
  tests/lib/gateway.py kill FOLDER    kills the gateway alone, which keeps nothing itself
  tests/lib/gateway.py again FOLDER   starts the gateway again
  tests/lib/gateway.py stop FOLDER    ends it, and forgets all
The bucket `full` is of another user (`full-credentials`), who has room for 40 objects. It takes 140 MB of memory.
"""
import contextlib
import json
import os
import secrets
import shutil
import signal
import socket
import subprocess
import sys
import time
import uuid

from store import Client

PACKAGES = 'radosgw', 'ceph-mon', 'ceph-osd'
SETTINGS = """[global]
fsid = {fsid}
mon_host = [v2:127.0.0.1:{ports[1]},v1:127.0.0.1:{ports[2]}]
public_addr = 127.0.0.1
cluster_addr = 127.0.0.1
keyring = {folder}/keyring
run_dir = {folder}/run
admin_socket = {folder}/run/$name.asok
log_file = {folder}/log/$name.log
crash_dir = {folder}/run
osd_pool_default_size = 1
osd_pool_default_min_size = 1
osd_pool_default_pg_num = 8
osd_pool_default_pgp_num = 8
osd_pool_default_pg_autoscale_mode = off
osd_crush_chooseleaf_type = 0
mon_allow_pool_size_one = true
mon_max_pg_per_osd = 1000
mon_data_avail_crit = 1
mon_data_avail_warn = 2
[mon]
mon_data = {folder}/mon
paxos_propose_interval = 0.05
paxos_min_wait = 0.01
[osd]
osd_data = {folder}/osd
osd_objectstore = memstore
memstore_device_bytes = 4294967296
osd_class_load_list = *
osd_class_default_list = *
[client.rgw]
rgw_data = {folder}/rgw
rgw_frontends = beast endpoint=127.0.0.1:{ports[0]} tcp_nodelay=1
rgw_thread_pool_size = 64
"""
CAPS = {'mon.': ['mon', 'allow *'], 'client.admin': ['mon', 'allow *', 'osd', 'allow *', 'mgr', 'allow *'],
        'osd.0': ['mon', 'allow profile osd', 'osd', 'allow *'], 'client.rgw': ['mon', 'allow rw', 'osd', 'allow rwx']}


def free_ports(count):
    """Ports at which nobody listens now."""
    links = [socket.create_server(('127.0.0.1', 0)) for _ in range(count)]
    ports = [link.getsockname()[1] for link in links]
    for link in links:
        link.close()
    return ports


def do(*words, limit=60):
    """Runs a command to its end; where it fails, what it said is told."""
    done = subprocess.run(words, stdout=subprocess.PIPE, stderr=subprocess.STDOUT, timeout=limit)
    if done.returncode:
        sys.exit(f'gateway: {words[0]} failed: {done.stdout.decode(errors="replace")[-500:]}')
    return done.stdout.decode()


def begin(folder, name, *words):
    """Starts a process that outlives this one, and keeps its number."""
    with open(f'{folder}/log/{name}.out', 'ab') as said:
        process = subprocess.Popen([*words, '-c', f'{folder}/ceph.conf', '-f'], stdin=subprocess.DEVNULL, stdout=said,
                                   stderr=said, start_new_session=True)
    with open(f'{folder}/{name}.pid', 'w') as file:
        file.write(str(process.pid))


def end(folder, name):
    """Kills a process, and waits until it is gone."""
    with contextlib.suppress(FileNotFoundError, ProcessLookupError):
        with open(f'{folder}/{name}.pid') as file:
            process = int(file.read())
        if runs(folder, process):
            os.kill(process, signal.SIGKILL)
            wait_until(lambda: not runs(folder, process), f'{name} doesn\'t end', 10)


def runs(folder, process):
    """Whether a process runs that was begun over this folder. (One that has ended has no words.)"""
    with open(f'/proc/{process}/cmdline') as file:
        return f'{folder}/ceph.conf' in file.read().split('\0')


def stop(folder):
    for name in ('rgw', 'osd', 'mon'):
        end(folder, name)


def wait_until(test, what, seconds=60):
    limit = time.monotonic() + seconds
    while not test():
        if time.monotonic() > limit:
            sys.exit(f'gateway: {what} in {seconds} seconds')
        time.sleep(0.05)


def make_settings(folder):
    """New settings and keys, and what a monitor begins with."""
    for name in ('mon', 'osd', 'run', 'log', 'rgw'):
        os.makedirs(f'{folder}/{name}')
    ports, fsid = free_ports(3), str(uuid.uuid4())
    with open(f'{folder}/ceph.conf', 'w') as file:
        file.write(SETTINGS.format(folder=folder, ports=ports, fsid=fsid))
    with open(f'{folder}/port', 'w') as file:
        file.write(str(ports[0]))
    for name, caps in CAPS.items():
        pairs = [word for pair in zip(caps[::2], caps[1::2]) for word in ('--cap', *pair)]
        new = ['--create-keyring'] if name == 'mon.' else []
        do('ceph-authtool', f'{folder}/keyring', *new, '--gen-key', '-n', name, *pairs)
    do('monmaptool', '--create', '--clobber', '--fsid', fsid, '--addv', 'a',
       f'[v2:127.0.0.1:{ports[1]},v1:127.0.0.1:{ports[2]}]', f'{folder}/monmap')
    do('ceph-mon', '-c', f'{folder}/ceph.conf', '--mkfs', '-i', 'a', '--monmap', f'{folder}/monmap',
       '--keyring', f'{folder}/keyring')


def listens(folder):
    try:
        socket.create_connection(('127.0.0.1', port_of(folder)), timeout=1).close()
        return True
    except OSError:
        return False


def port_of(folder):
    with open(f'{folder}/port') as file:
        return int(file.read())


def start_gateway(folder):
    begin(folder, 'rgw', 'radosgw', '-n', 'client.rgw')
    wait_until(lambda: listens(folder), 'the gateway doesn\'t listen')


def make_user(folder, name, file):
    """A user with a new key, which goes to a file of two lines."""
    key = f'{name}{secrets.token_hex(8)}'.upper(), secrets.token_urlsafe(30)
    do('radosgw-admin', '-c', f'{folder}/ceph.conf', 'user', 'create', '--uid', name, '--display-name', name,
       '--access-key', key[0], '--secret-key', key[1])
    with open(os.open(f'{folder}/{file}', os.O_WRONLY | os.O_CREAT, 0o600), 'w') as kept:
        kept.write('\n'.join([*key, '']))
    return key


def make_bucket(folder, name, key):
    """A bucket of logs, whose checkpoints, tiles and bundles anybody may read."""
    client = Client(f'http://127.0.0.1:{port_of(folder)}/{name}', key)
    public = [f'arn:aws:s3:::{name}/*/{path}' for path in ('checkpoint', 'tile/*')]
    rule = {'Effect': 'Allow', 'Principal': '*', 'Action': 's3:GetObject', 'Resource': public}
    policy = json.dumps({'Version': '2012-10-17', 'Statement': [rule]}).encode()
    for query, body in (('', b''), ('policy=', policy)):
        status, _, said = client.ask('PUT', '', body, query)
        if status not in (200, 204):
            sys.exit(f'gateway: bucket {name}: {status} {said[:300]}')


def start(folder):
    """Starts all of it anew. (Its keys are needed: the gateway starts by no other authentication.)"""
    admin = 'ceph', '-c', f'{folder}/ceph.conf', '--connect-timeout', '20'
    make_settings(folder)
    begin(folder, 'mon', 'ceph-mon', '-i', 'a')
    number = str(uuid.uuid4())
    do(*admin, 'osd', 'new', number, '0')
    do('ceph-osd', '-c', f'{folder}/ceph.conf', '-i', '0', '--mkfs', '--osd-uuid', number,
       '--monmap', f'{folder}/monmap')
    begin(folder, 'osd', 'ceph-osd', '-i', '0')
    wait_until(lambda: '1 up' in do(*admin, 'osd', 'stat'), 'the object server isn\'t up')
    keys = make_user(folder, 'logs', 'credentials'), make_user(folder, 'full', 'full-credentials')
    settings = 'radosgw-admin', '-c', f'{folder}/ceph.conf', 'quota'
    do(*settings, 'set', '--quota-scope=user', '--uid=full', '--max-objects=40')
    do(*settings, 'enable', '--quota-scope=user', '--uid=full')
    start_gateway(folder)
    make_bucket(folder, 'logs', keys[0])
    make_bucket(folder, 'full', keys[1])


def main(words):
    if len(words) != 2 or words[0] not in ('start', 'kill', 'again', 'stop'):
        sys.exit('gateway: tests/lib/gateway.py start|kill|again|stop FOLDER')
    lacking = [package for package in PACKAGES if not shutil.which(package)]
    if lacking:
        sys.exit(f'gateway: it isn\'t there: apt-get install -y --no-install-recommends {" ".join(lacking)}')
    action, folder = words[0], os.path.realpath(words[1])
    if action == 'start':
        try:
            start(folder)
        except BaseException:
            stop(folder)
            raise
        print(f'http://127.0.0.1:{port_of(folder)}')
    elif action == 'kill':
        end(folder, 'rgw')
    elif action == 'again':
        start_gateway(folder)
    else:
        stop(folder)


if __name__ == '__main__':
    main(sys.argv[1:])
