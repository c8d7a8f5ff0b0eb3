"""The command line of the webhooks: reads it, and has a thread for each receiver."""
from __future__ import annotations

import argparse
import signal
import ssl
import sys
import threading

from ....common import entry
from ....common.text import shown
from ....desk import arguments
from .config import BadConfig, Hook, check_mode, read_hooks
from .ledger import Ledger, NoLedger
from .receiver import Receiver
from .sender import IDLE, Clock, Sender
from .source import Source

FAULT = 1
WRONG = 2


def log(words: str) -> None:
    """Writes a line to the log. What is in it of others can't write a second one."""
    print(f'webhooks: {shown(words, 500)}', file=sys.stderr, flush=True)


def words(text: str) -> argparse.ArgumentParser:
    """Returns the options of the command line. `text` is the head of the help."""
    line = entry.parser(text, 'webhooks')
    add = line.add_argument
    add(
        '--config',
        default='/etc/nulvrader/webhooks.toml',
        metavar='FILE',
        help='who gets what (default: /etc/nulvrader/webhooks.toml)',
    )
    add(
        '--board',
        default='http://127.0.0.1:8081',
        metavar='ADDRESS',
        help='the board, or the proxy in front of it, as https://desk.example/board '
        '(default: http://127.0.0.1:8081)',
    )
    add('--user', metavar='NAME', help='the user name for the proxy: a reader')
    text = 'a file whose first line is the password for the proxy'
    add('--password-file', metavar='FILE', help=text)
    add('--ca', metavar='FILE', help="a PEM file with the authority of the proxy's certificate")
    text = 'where it keeps how far each receiver is (default: webhooks.db)'
    add('--db', default='webhooks.db', metavar='FILE', help=text)
    add('--check', action='store_true', help='read the configuration, and end')
    return line


def source_of(said: argparse.Namespace) -> Source:
    """Returns the board that the options name."""
    file, password = said.password_file, None
    if file:
        check_mode(file, shown(file))
        password = arguments.first_line(file)
    return Source(said.board, user=said.user, password=password, cafile=said.ca)


def follow(sender: Sender, over: threading.Event) -> None:
    """Sends to one receiver, until all is over."""
    pause = 0.0
    while not over.wait(pause):
        try:
            pause = sender.step()
        except Exception as fault:  # of this program: the other receivers still get theirs
            log(f'{sender.hook.name}: {fault!r}')
            pause = 60 * IDLE


def serve(said: argparse.Namespace, hooks: tuple[Hook, ...]) -> int:
    """Sends until a signal comes."""
    ledger = Ledger(said.db)
    over = threading.Event()
    for number in (signal.SIGINT, signal.SIGTERM):
        signal.signal(number, lambda *_: over.set())
    source = source_of(said)
    threads = []
    for hook in hooks:
        sender = Sender(hook, source, Receiver(hook), ledger, log, Clock())
        args = (sender, over)
        threads.append(threading.Thread(target=follow, args=args, name=hook.name, daemon=True))
    for thread in threads:
        thread.start()
    print(f'sending to {len(hooks)}: {", ".join(hook.name for hook in hooks)}', flush=True)
    over.wait()
    for thread in threads:
        thread.join(0.5)
    return 0


def run(line: list[str], text: str) -> int:
    """Sends events to receivers; `text` is the head of the help. The status: 1 where something
    can't be had, 2 where the line or the configuration is wrong."""
    said = words(text).parse_args(line)
    try:
        hooks = read_hooks(said.config)
        if said.check:
            for hook in hooks:
                Receiver(hook)
            print(f'{len(hooks)} receivers: {", ".join(hook.name for hook in hooks)}')
            return 0
        return serve(said, hooks)
    except (BadConfig, ValueError) as fault:
        log(str(fault))
        return WRONG
    except (NoLedger, OSError, ssl.SSLError) as fault:
        log(str(fault))
        return FAULT
