"""nginx with the files of `examples/nginx`, in a folder and on ports of a test, in front of a desk
and a board that a test starts."""
from __future__ import annotations

import base64
import contextlib
import json
import os
import re
import shutil
import socket
import ssl
import subprocess
import tempfile
from dataclasses import dataclass

from tests.support.programs import ROOT, free_port, wait_for_port

MISSING = [name for name in ('nginx', 'openssl') if shutil.which(name) is None]
WHY = f"no {' and no '.join(MISSING)} here"
# The roles of users, whose passwords are their names with "!". ANNA is another user than anna.
USERS = {'anna': 'dispatcher', 'otto': '', 'gate': 'gateway', 'ANNA': ''}
MAIN = """{user}daemon off;
pid {folder}/pid;
error_log {folder}/error.log;
worker_processes 1;
worker_rlimit_nofile 8192;
events {{ worker_connections 4096; }}
http {{
access_log off;
client_body_temp_path {folder}/body;
proxy_temp_path {folder}/proxied;
fastcgi_temp_path {folder}/fastcgi;
uwsgi_temp_path {folder}/uwsgi;
scgi_temp_path {folder}/scgi;
{conf}
}}
"""


@dataclass(frozen=True)
class Told:
    """What is answered to a request: the status, the head and the body."""

    status: int
    head: str
    body: bytes


def text_of(name: str) -> str:
    """A file of `examples/nginx`."""
    with open(os.path.join(ROOT, 'examples', 'nginx', name), encoding='utf-8') as file:
        return file.read()


def basic(user: str, password: str) -> str:
    """The line of a head that claims a user."""
    return 'Authorization: Basic ' + base64.b64encode(f'{user}:{password}'.encode()).decode()


def at(target: str | int) -> str:
    """What stands in an upstream for a port of this machine, or for a socket."""
    return f'127.0.0.1:{target}' if isinstance(target, int) else f'unix:{target}'


def by_certificates(text: str) -> str:
    """The server with TLS, with the three lines for certificates instead of the two for
    passwords."""
    text = re.sub(r'^    auth_basic.*\n', '', text, flags=re.M)
    return re.sub(r'^    # (ssl_client|ssl_verify|set )', r'    \1', text, flags=re.M)


class Proxy:
    """nginx that runs: `port` is that of the server without TLS, `tls_port` of the one with it."""

    def __init__(self, desk: str | int, board: str | int, certificates: bool = False) -> None:
        self.stack = contextlib.ExitStack()
        self.folder = self.stack.enter_context(tempfile.TemporaryDirectory())
        os.chmod(self.folder, 0o755)
        self.port, self.tls_port = free_port(), free_port()
        self._make_certificate('server')
        for user, role in USERS.items():
            self.add_user(user, role)
        for user in ('anna', 'otto') if certificates else ():
            self._make_certificate(user)
            self.write('clients.pem', self.read(f'{user}.pem'))
        self.write('proxy.conf', self._here(text_of('proxy.conf')))
        tls = text_of('desk_tls.conf')
        conf = text_of('desk.conf') + (by_certificates(tls) if certificates else tls)
        conf = self._here(conf)
        for found, wanted in (
            ('127.0.0.1:882', f'127.0.0.1:{self.port}'),
            ('listen 443 ', f'listen 127.0.0.1:{self.tls_port} '),
            ('send_timeout 20s;', 'send_timeout 600s;'),  # a test may be slow
            ('server_name desk.example;', 'server_name 127.0.0.1 desk.example;'),
            ('unix:/run/nulvrader/desk.sock', at(desk)),
            ('unix:/run/desk-board/board.sock', at(board)),
        ):
            if found not in conf:
                raise AssertionError(found)
            conf = conf.replace(found, wanted)
        user = 'user root;\n' if os.geteuid() == 0 else ''
        self.write('nginx.conf', MAIN.format(folder=self.folder, conf=conf, user=user))
        self.process = subprocess.Popen(
            ['nginx', '-c', self.path('nginx.conf')], stderr=subprocess.PIPE, text=True
        )
        wait_for_port(self.tls_port, self.process)

    def _here(self, text: str) -> str:
        """A file of `examples/nginx` with the folder of this test for those of the machine."""
        text = text.replace('/etc/nginx/desk/', self.path(''))
        text = text.replace('/var/lib/nginx/desk', self.path('kept'))
        text = text.replace(
            'proxy_read_timeout 60s;', 'proxy_read_timeout 600s;'
        )  # a test may be slow
        text = text.replace('syslog:server=unix:/dev/log,tag=desk_nginx', self.path('journal'))
        return text.replace('/var/log/nulvrader/', self.path(''))

    def _make_certificate(self, name: str) -> None:
        """Makes a certificate that vouches for itself: that of the server, or of a user."""
        common = '127.0.0.1' if name == 'server' else name
        names = 'subjectAltName=IP:127.0.0.1,DNS:desk.example'
        files = ['-keyout', self.path(f'{name}.key'), '-out', self.path(f'{name}.pem')]
        line = ['openssl', 'req', '-x509', '-days', '2', '-subj', f'/CN={common}', '-addext', names]
        key = ['-newkey', 'rsa:2048', '-nodes', *files]
        subprocess.run([*line, *key], check=True, capture_output=True)

    def path(self, name: str) -> str:
        """A file of the folder."""
        return os.path.join(self.folder, name)

    def write(self, name: str, text: str) -> None:
        """Adds a text to a file of the folder."""
        with open(self.path(name), 'a', encoding='utf-8') as file:
            file.write(text)

    def read(self, name: str) -> str:
        """A file of the folder."""
        with open(self.path(name), encoding='utf-8') as file:
            return file.read()

    def add_user(self, user: str, role: str) -> None:
        """Adds a user, whose password is the name with "!"."""
        line = ['openssl', 'passwd', '-apr1', f'{user}!']
        told = subprocess.run(line, check=True, capture_output=True, text=True)
        self.write('users', f'{user}:{told.stdout}')
        if role:
            self.write('roles', f'~^{user}$ {role};\n"~^CN={user}$" {role};\n')

    def records(self) -> list[dict[str, str]]:
        """The lines of the record."""
        return [json.loads(line) for line in self.read('desk.log').splitlines()]

    def errors(self) -> str:
        """What is told to the journal."""
        return self.read('journal')

    def connect(self, tls: bool) -> socket.socket:
        """A connection to one of the servers."""
        port = self.tls_port if tls else self.port
        plain = socket.create_connection(('127.0.0.1', port), timeout=300)
        if not tls:
            return plain
        context = ssl.create_default_context(cafile=self.path('server.pem'))
        return context.wrap_socket(plain, server_hostname='127.0.0.1')

    def host(self, tls: bool) -> str:
        """What a client names in `Host`."""
        return f'127.0.0.1:{self.tls_port if tls else self.port}'

    def origin(self, tls: bool) -> str:
        """The origin of the server's own pages."""
        return f"{'https' if tls else 'http'}://{self.host(tls)}"

    def ask(
        self,
        request: str,
        *lines: str,
        user: str | None = None,
        body: str = '',
        tls: bool = False,
        host: str | None = None,
    ) -> Told:
        """One request as these bytes: `request` is the method and the target, `lines` are further
        lines of its head. The user has the password of `USERS` but where it is named behind a
        colon."""
        head = [f'{request} HTTP/1.1', f'Host: {self.host(tls) if host is None else host}', *lines]
        if user is not None:
            name, _, password = user.partition(':')
            head.append(basic(name, password or f'{name}!'))
        if body or not request.startswith('GET '):
            head.append(f'Content-Length: {len(body.encode())}')
        data = '\r\n'.join([*head, 'Connection: close', '', body]).encode()
        with self.connect(tls) as connection:
            connection.sendall(data)
            return answered(connection)

    def close(self) -> None:
        """Ends nginx, and removes the folder."""
        self.process.terminate()
        self.process.wait(300)
        if self.process.stderr is not None:
            self.process.stderr.close()
        self.stack.close()


def answered(connection: socket.socket) -> Told:
    """What comes on a connection until its end."""
    data = b''
    with contextlib.suppress(ConnectionResetError):
        while more := connection.recv(65536):
            data += more
    head, _, body = data.partition(b'\r\n\r\n')
    status = re.match(rb'HTTP/1\.1 (\d+)', head)
    return Told(int(status[1]) if status else 0, head.decode('latin-1'), body)
