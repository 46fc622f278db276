"""Servers over TLS: certificates, made by the command `openssl`, and a relay that speaks TLS before a server that
doesn't."""
import contextlib
import socket
import ssl
import subprocess
import threading

OURS = 'DNS:localhost,IP:127.0.0.1,IP:::1'


def certificate(name, names=OURS, days=2):
    """Makes NAME.pem and NAME.key, a certificate that is signed by itself; it has expired if the days are below 0."""
    quiet = {'stdin': subprocess.DEVNULL, 'stdout': subprocess.DEVNULL, 'stderr': subprocess.DEVNULL, 'check': True}
    with open(f'{name}.names', 'w', encoding='utf-8') as file:
        file.write(f'subjectAltName={names}\n')
    subprocess.run(['openssl', 'req', '-newkey', 'ec', '-pkeyopt', 'ec_paramgen_curve:prime256v1', '-nodes', '-keyout',
                    f'{name}.key', '-out', f'{name}.request', '-subj', f'/CN={name}'], **quiet)
    subprocess.run(['openssl', 'x509', '-req', '-in', f'{name}.request', '-signkey', f'{name}.key', '-days', str(days),
                    '-extfile', f'{name}.names', '-out', f'{name}.pem'], **quiet)


class OverTls:
    """A port of this machine, by TLS, whose connections go to another port as bytes: how many there were, and how
    many are open. The server names that were asked for are kept."""

    def __init__(self, behind, certificate_name, host='127.0.0.1'):
        self.behind, self.count, self.names, self.links = behind, 0, [], set()
        self.context = ssl.SSLContext(ssl.PROTOCOL_TLS_SERVER)
        self.context.load_cert_chain(f'{certificate_name}.pem', f'{certificate_name}.key')
        self.context.sni_callback = lambda link, name, context: self.names.append(name)
        family = socket.AF_INET6 if ':' in host else socket.AF_INET
        self.listener = socket.create_server((host, 0), family=family, backlog=128)
        self.port = self.listener.getsockname()[1]
        threading.Thread(target=self.accept, daemon=True).start()

    def url(self, path='', host='localhost'):
        return f'https://{host}:{self.port}{path}'

    def accept(self):
        with contextlib.suppress(OSError):
            while True:
                client, _ = self.listener.accept()
                self.count += 1
                threading.Thread(target=self.join, args=(client,), daemon=True).start()

    def join(self, client):
        """Both ways of a connection, each by a thread."""
        with contextlib.suppress(OSError), client:
            client.settimeout(20)
            with self.context.wrap_socket(client, server_side=True) as link, \
                    socket.create_connection(('127.0.0.1', self.behind)) as server:
                link.settimeout(None)
                for end in (link, server):
                    end.setsockopt(socket.IPPROTO_TCP, socket.TCP_NODELAY, 1)
                self.links.add(link)
                back = threading.Thread(target=hand_on, args=(server, link), daemon=True)
                back.start()
                hand_on(link, server)
                back.join()
                self.links.discard(link)

    def drop(self):
        """Ends all connections."""
        for link in list(self.links):
            with contextlib.suppress(OSError):
                link.shutdown(socket.SHUT_RDWR)


def hand_on(source, to):
    """Hands on what comes from one side, and closes both once that has ended."""
    with contextlib.suppress(OSError):
        while piece := source.recv(65_536):
            to.sendall(piece)
    for end in (source, to):
        with contextlib.suppress(OSError):
            end.shutdown(socket.SHUT_RDWR)
