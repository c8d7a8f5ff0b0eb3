"""Debian's own nginx, set up by the steps of docs/OPERATE.md in their order, with the folders and
ports of a test in the place of the machine's."""
from __future__ import annotations

import base64
import contextlib
import glob
import grp
import http.client
import json
import os
import pwd
import re
import shutil
import socket
import ssl
import subprocess
import tempfile

from tests.support.programs import ROOT, free_port, module, wait_for_port

ETC = '/etc/nginx'
IS_DEBIAN = os.path.exists(f'{ETC}/sites-available/default')
PLAIN, TLS = 'Several clients', 'TLS, and who may do what'
SITES = module('make-deb', 'dev').SITES  # the name of each site in the package
# Where nginx keeps what it has to write to a file, which else only root may.
TEMPORARY = ('client_body', 'proxy', 'fastcgi', 'uwsgi', 'scgi')
LISTENS = '0A'  # a state of a socket in /proc/net/tcp


def steps(title: str) -> list[str]:
    """The lines of the commands under a heading of docs/OPERATE.md, from the first code block
    on."""
    with open(os.path.join(ROOT, 'docs', 'OPERATE.md'), encoding='utf-8') as file:
        text = file.read().split(f'\n## {title}\n')[1].split('\n## ')[0]
    return text.split('```\n')[1].replace('\\\n', ' ').splitlines()


def id_of(known: object, name: str) -> int:
    """The number of a user or of a group, or that of root's on a machine without it."""
    try:
        return int(known(name)[2])  # type: ignore[operator]
    except KeyError:
        return 0


class InstalledNginx:
    """nginx that runs in front of a desk: `port` is that of the server without TLS, `tls_port` of
    the one with it, `web_port` the one in the place of 80."""

    def __init__(self, desk_port: int) -> None:
        self.stack = contextlib.ExitStack()
        self.here = self.stack.enter_context(tempfile.TemporaryDirectory())
        os.chmod(self.here, 0o755)
        self.port, self.tls_port, self.web_port = free_port(), free_port(), free_port()
        self.moves = (
            ('/etc/nginx', self.path('conf')),
            ('/var/log/nulvrader', self.path('record')),
            ('/var/log/nginx', self.path('log')),
            ('/var/lib/nginx/desk', self.path('kept')),
            ('/run/nginx.pid', self.path('pid')),
            ('syslog:server=unix:/dev/log,tag=desk_nginx', self.path('journal')),
            ('syslog:server=unix:/dev/log,tag=nginx', self.path('main')),
            ('unix:/run/nulvrader/desk.sock', f'127.0.0.1:{desk_port}'),
            ('127.0.0.1:882', f'127.0.0.1:{self.port}'),
            ('listen 443 ', f'listen 127.0.0.1:{self.tls_port} '),
            ('listen 80 ', f'listen 127.0.0.1:{self.web_port} '),
            ('listen [::]:80 ', f'listen [::1]:{self.web_port} '),
        )
        self._take_debian()
        self._take_package()
        for title in (PLAIN, TLS):
            for line in steps(title):
                self.take(line)

    def path(self, name: str) -> str:
        """A file of this test."""
        return os.path.join(self.here, name)

    def start(self) -> None:
        """Starts nginx, and waits until it listens."""
        line = ['nginx', '-c', self.path('conf/nginx.conf'), '-g', 'daemon off;']
        self.process = subprocess.Popen(line, stderr=subprocess.DEVNULL)
        self.stack.callback(self.process.wait)
        self.stack.callback(self.process.terminate)
        for port in (self.port, self.tls_port):
            wait_for_port(port, self.process)

    def _take_debian(self) -> None:
        """The files that Debian's package has, and its folder of logs."""
        shutil.copytree(ETC, self.path('conf'), symlinks=True)
        os.mkdir(self.path('log'))
        default = self.path('conf/sites-enabled/default')
        if not os.path.lexists(default):
            os.symlink(f'{ETC}/sites-available/default', default)
        for name in ('nginx.conf', 'sites-available/default'):
            self.move(self.path(f'conf/{name}'))
        os.remove(default)
        os.symlink('../sites-available/default', default)
        lines = [f'{name}_temp_path {self.path(name)};\n' for name in TEMPORARY]
        with open(self.path('conf/conf.d/temporary.conf'), 'w', encoding='utf-8') as file:
            file.writelines(lines)

    def _take_package(self) -> None:
        """The files of nginx that the package has, with the owners and modes of tmpfiles.conf."""
        path = os.path.join(ROOT, 'examples', 'systemd', 'tmpfiles.conf')
        with open(path, encoding='utf-8') as file:
            rows = [line.split() for line in file if line[0] in 'df']
        for kind, path, mode, user, group in rows:
            found = self.moved(path)
            if found == path:
                continue
            if kind == 'd':
                os.mkdir(found)
            else:
                open(found, 'x', encoding='utf-8').close()
            os.chmod(found, int(mode, 8))
            if os.geteuid() == 0:
                os.chown(found, id_of(pwd.getpwnam, user), id_of(grp.getgrnam, group))
        names = {f'conf/sites-available/{site}': name for name, site in SITES.items()}
        for path, name in {**names, 'conf/desk/proxy.conf': 'proxy.conf'}.items():
            shutil.copy(os.path.join(ROOT, 'examples', 'nginx', name), self.path(path))
            self.move(self.path(path))

    def moved(self, text: str) -> str:
        """A text with the folders and ports of this test."""
        for found, wanted in self.moves:
            text = text.replace(found, wanted)
        return text

    def move(self, path: str) -> None:
        """Has an installed file name the folders and ports of this test."""
        with open(path, encoding='utf-8') as file:
            text = self.moved(file.read())
        with open(path, 'w', encoding='utf-8') as file:
            file.write(text)

    def take(self, line: str) -> None:
        """One step of the page: the questions at its end are asked by the tests, and nginx is there
        and not restarted."""
        if line.startswith(('apt-get ', 'curl ', 'usermod ')):
            return
        line = line.replace('$(openssl passwd -apr1)', '$(openssl passwd -apr1 of-anna)')
        test = f"nginx -t -q -c {self.path('conf/nginx.conf')}"
        line = re.sub(r'nginx -t && systemctl \w+ nginx', test, self.moved(line))
        done = subprocess.run(
            ['sh', '-euc', line], cwd=ROOT, capture_output=True, text=True, check=False
        )
        assert done.returncode == 0, (line, done.stderr)

    def add_user(self, name: str, role: str | None) -> None:
        """Adds a user, whose password is `of-` and the name."""
        made = f'"$(openssl passwd -apr1 of-{name})" >> /etc/nginx/desk/users'
        self.take(f"printf '{name}:%s\\n' {made}")
        if role:
            self.take(f"echo '~^{name}$ {role};' >> /etc/nginx/desk/roles")

    def add_site(self, text: str) -> None:
        """Adds another site than those of the page."""
        with open(self.path('conf/sites-enabled/other'), 'w', encoding='utf-8') as file:
            file.write(text)

    def ask(
        self, method: str, target: str, body: object = None, user: str = '', tls: bool = False
    ) -> tuple[int, bytes]:
        """One request by one of the servers: the status, and the body."""
        data = None if body is None else json.dumps(body).encode()
        return self.ask_with(method, target, data, user, tls)

    def ask_with(
        self, method: str, target: str, data: bytes | None, user: str = '', tls: bool = False
    ) -> tuple[int, bytes]:
        """One request with these bytes as its body."""
        host = 'desk.example' if tls else '127.0.0.1'
        connection = http.client.HTTPConnection(host, timeout=300)
        port = self.tls_port if tls else self.port
        connection.sock = socket.create_connection(('127.0.0.1', port), timeout=300)
        if tls:
            context = ssl.create_default_context(cafile=self.path('conf/desk/server.pem'))
            connection.sock = context.wrap_socket(connection.sock, server_hostname=host)
        headers = {}
        if user:
            secret = base64.b64encode(f'{user}:of-{user}'.encode()).decode()
            headers = {'Authorization': f'Basic {secret}'}
        with contextlib.closing(connection):
            connection.request(method, target, data, headers)
            answer = connection.getresponse()
            return answer.status, answer.read()

    def sizes(self) -> dict[str, int]:
        """The bytes of each file in the folders of logs."""
        names = [
            name for folder in ('log', 'record') for name in glob.glob(self.path(f'{folder}/*'))
        ]
        return {os.path.relpath(name, self.here): os.path.getsize(name) for name in names}

    def processes(self) -> list[int]:
        """The numbers of its processes."""
        first = self.process.pid
        with open(f'/proc/{first}/task/{first}/children', encoding='ascii') as file:
            return [first, *map(int, file.read().split())]

    def listens(self) -> set[tuple[int, int]]:
        """The family and the port of each socket on which nginx listens."""
        fds = glob.glob(f'/proc/{self.process.pid}/fd/*')
        links = {os.readlink(name) for name in fds if os.path.lexists(name)}
        found = set()
        for name, family in (('tcp', socket.AF_INET), ('tcp6', socket.AF_INET6)):
            with open(f'/proc/net/{name}', encoding='ascii') as file:
                rows = [line.split() for line in file][1:]
            for row in rows:
                if row[3] == LISTENS and f'socket:[{row[9]}]' in links:
                    found.add((int(family), int(row[1].rpartition(':')[2], 16)))
        return found

    def close(self) -> None:
        """Ends nginx, and removes the folder."""
        self.stack.close()
