"""Shows that the broker of examples/mosquitto lets each user and each certificate do its own
alone."""
from __future__ import annotations

import contextlib
import json
import os
import resource
import shutil
import socket
import ssl
import subprocess
import sys
import time
import unittest
from typing import Any

from nulvrader.gateway import inbox
from tests.support import mqtt
from tests.support import programs
from tests.support.attacked_gateway import TOPIC, state
from tests.support.mqtt import Client, WithADesk, with_mosquitto, with_paho
from tests.support.programs import PATIENCE, until
from tests.support.states import KIT1

USERS = {'gateway': 'of-gate', 'KIT/0001': 'of-one', 'KIT/0002': 'of-two', 'ABC/0001': 'of-abc'}
EXAMPLE = os.path.join(programs.ROOT, 'examples', 'mosquitto')
GUIDE = os.path.join(programs.ROOT, 'docs', 'OPERATE.md')


def guide_lines(begin: str) -> list[str]:
    """Returns the commands of docs/OPERATE.md that begin so, each on one line."""
    with open(GUIDE) as file:
        joined = file.read().replace('\\\n', ' ')
    return [line for line in joined.split('\n') if line.startswith(begin)]


@with_mosquitto
@unittest.skipUnless(shutil.which('openssl'), 'openssl is not here')
class Configured(WithADesk):
    """The broker by examples/mosquitto, with other folders and another port, and users."""

    comments: tuple[str, ...] = ()  # lines of the configuration that are switched on,
    without: tuple[str, ...] = ()  # and off
    address = '127.0.0.1'  # where it listens
    is_limited = True  # whether the file of subscriptions has the users

    def setUp(self) -> None:
        super().setUp()
        for folder in ('certs', 'ca_certificates'):
            os.mkdir(self.path(folder))
        self.certify()
        self.write('passwords', '')
        for user, password in USERS.items():
            line = ['mosquitto_passwd', '-b', self.path('passwords'), user, password]
            subprocess.run(line, check=True, capture_output=True)
        os.chmod(self.path('passwords'), 0o644)
        with open(os.path.join(EXAMPLE, 'acl')) as file:
            self.write('acl', file.read())
        users = self.path('passwords') if self.is_limited else os.devnull
        limit = [os.path.join(EXAMPLE, 'limit-subscriptions'), users]
        subprocess.run([sys.executable, *limit, self.path('subscriptions.json')], check=True)
        self.start_broker(self.write('mosquitto.conf', self.configuration()))
        self.context = ssl.create_default_context(cafile=self.path('certs/server.pem'))

    def configuration(self) -> str:
        """Returns the configuration of the example, in the folder and on the port of the test."""
        with open(os.path.join(EXAMPLE, 'mosquitto.conf')) as file:
            content = file.read()
        changes = [(f'#{line}', line) for line in self.comments]
        changes += [(f'\n{line}', f'\n#{line}') for line in self.without]
        changes += [('/etc/mosquitto', self.folder)]
        changes += [('listener 8883\n', f'listener {self.port} {self.address}\n')]
        for before, after in changes:
            self.assertIn(before, content)
            content = content.replace(before, after)
        return content

    def certify(self) -> None:
        """Makes the broker's certificate, by the command of docs/OPERATE.md."""
        (line,) = guide_lines('openssl req -x509 -newkey rsa:2048 -nodes -days 90 -subj /CN=broker')
        line = line.replace('/etc/mosquitto', self.folder).replace('broker.example', 'localhost')
        subprocess.run(['sh', '-ec', line], check=True, capture_output=True)
        os.chmod(self.path('certs/server.key'), 0o644)

    def connect(self, user: str | None, password: str | None = None, **more: Any) -> Client:
        """Connects as a user, with the right password if none is given."""
        right = USERS.get(user or '')
        made = Client(
            self.port, user=user, password=password or right, context=self.context, **more
        )
        self.addCleanup(made.__exit__)
        return made

    def connected(self, user: str, **more: Any) -> Client:
        """Connects as a user who is let in."""
        made = self.connect(user, **more)
        self.assertEqual(made.code, 0)
        return made

    def reader(self, user: str, *topics: str) -> Client:
        """Connects as a user who subscribes to topics, with its name as client id."""
        made = self.connected(user, name=user)
        made.subscribe(*topics)
        return made

    def pass_on(self, reader: Client) -> None:
        """Waits until all that was sent before has gone through: a state of a vehicle, which the
        gateway's user may read, comes back to it."""
        mark = f'mark {time.monotonic()}'.encode()
        sender = self.connected('ABC/0001')
        sender.publish('uagv/v2/ABC/0001/state', mark)
        until(lambda: any(data == mark for _, data in reader.came), 'a state of ABC/0001')


class BrokerConnections(Configured):
    def test_silent_ones(self) -> None:
        """Somebody without a password opens 600 connections and sends nothing; a vehicle must be
        let in."""
        soft, _ = resource.getrlimit(resource.RLIMIT_NOFILE)
        if soft < 1400:
            self.skipTest(f'a program may open only {soft} files here')
        with contextlib.ExitStack() as kept:
            for _ in range(600):
                one = socket.create_connection(('127.0.0.1', self.port), timeout=60)
                kept.enter_context(one)
            self.connected('KIT/0001')

    def test_many_topics(self) -> None:
        """A vehicle subscribes to 200,000 topics by one packet, which would keep the broker from
        all others for minutes; its connection must be ended, and another vehicle be let in."""
        vehicle = self.connected('KIT/0001')
        topics = b''.join(mqtt.text(f'a{number}') + b'\0' for number in range(200_000))
        with contextlib.suppress(OSError):
            vehicle.send(mqtt.packet(0x82, b'\0\1' + topics))
        until(lambda: vehicle.granted or not vehicle.is_open, 'the end of the connection')
        self.assertEqual((vehicle.granted, vehicle.is_open), (0, False))
        self.connected('KIT/0002')

    def test_short_messages(self) -> None:
        """A vehicle sends a message whose topic is an alias of MQTT 5, which would have 8 bytes
        instead of 27; it must not be passed on."""
        reader = self.reader('gateway', 'uagv/v2/+/+/state')
        plain = socket.create_connection(('127.0.0.1', self.port), timeout=PATIENCE)
        with self.context.wrap_socket(plain, server_hostname='localhost') as line:
            words = b''.join(map(mqtt.text, ('', 'KIT/0001', USERS['KIT/0001'])))
            line.sendall(mqtt.packet(0x10, mqtt.text('MQTT') + b'\5\xc2\0\x3c\0' + words))
            self.assertEqual(line.recv(65536)[0], mqtt.CONNACK)
            topic, alias = mqtt.text('uagv/v2/KIT/0001/state'), b'\3\x23\0\1'
            line.sendall(mqtt.packet(mqtt.PUBLISH, topic + alias + b'x'))
            line.sendall(mqtt.packet(mqtt.PUBLISH, mqtt.text('') + alias + b'x'))
            self.pass_on(reader)
        self.assertEqual([data for _, data in reader.came if data == b'x'], [])


class BrokerOfAllAddresses(Configured):
    address = ''

    def test_over_ipv6(self) -> None:
        """Somebody wants to fill the broker over IPv6, where a machine has any number of addresses;
        the broker must listen on IPv4 alone."""
        with socket.socket(socket.AF_INET6) as tried:
            try:
                tried.bind(('::1', 0))
            except OSError:
                self.skipTest('no IPv6 here')
        with self.assertRaises(ConnectionRefusedError):
            socket.create_connection(('::1', self.port), timeout=60)
        self.connected('KIT/0001')


class BrokerRights(Configured):
    """The rights of users that the file of subscriptions does not have yet."""

    is_limited = False

    def test_who_is_let_in(self) -> None:
        """Somebody connects without a password, with a wrong one, as nobody's user, or without TLS:
        the broker refuses each."""
        for user, password in (
            (None, None),
            ('KIT/0001', 'wrong'),
            ('KIT/0001', 'of-two'),
            ('KIT/0003', 'of-one'),
            ('KIT/+', 'of-one'),
            ('#', 'of-one'),
        ):
            with self.subTest(user=user):
                self.assertNotEqual(self.connect(user, password).code, 0)
        with Client(self.port, user='KIT/0001', password='of-one') as plain:
            self.assertIsNone(plain.code)
        self.assertEqual(self.connect('KIT/0001').code, 0)

    def test_states_of_others(self) -> None:
        """A vehicle publishes on the topics of others, also of one of another manufacturer with its
        serial number, and on those that only the gateway writes: nothing is passed on."""
        everything = self.reader('gateway', 'uagv/v2/+/+/state', 'uagv/v2/+/+/connection')
        orders = self.reader('KIT/0001', TOPIC + 'order', TOPIC + 'instantActions')
        thief = self.connected('KIT/0002')
        for vehicle in ('KIT/0001', 'ABC/0001', 'ABC/0002', 'KIT/0003'):
            for topic in ('state', 'connection', 'order', 'instantActions', 'factsheet'):
                thief.publish(f'uagv/v2/{vehicle}/{topic}', b'forged')
                thief.publish(f'uagv/v2/{vehicle}/{topic}', b'forged', retain=True)
        for topic in ('order', 'instantActions'):
            thief.publish(f'uagv/v2/KIT/0002/{topic}', b'forged')
            orders.publish(TOPIC + topic, b'forged')
        thief.publish('uagv/v2/KIT/0002/state', b'own')
        until(lambda: ('uagv/v2/KIT/0002/state', b'own') in everything.came, 'its own state')
        self.pass_on(everything)
        self.assertEqual([data for _, data in everything.came if data == b'forged'], [])
        self.assertEqual((orders.came, orders.is_open), ([], True))

    def test_orders_of_others(self) -> None:
        """A vehicle subscribes to all topics, and to each of another vehicle: it is sent its own
        orders alone, and no state, not even its own."""
        topics = ('#', '+/+/+/+/+', 'uagv/v2/KIT/0001/order', 'uagv/v2/+/0001/order', '$SYS/#')
        thief = self.reader('KIT/0002', *topics)
        gateway = self.reader('gateway', 'uagv/v2/+/+/state')
        for vehicle in ('KIT/0001', 'ABC/0001', 'KIT/0002'):
            for topic in ('order', 'instantActions'):
                gateway.publish(f'uagv/v2/{vehicle}/{topic}', vehicle.encode())
        self.connected('KIT/0001').publish(TOPIC + 'state', b'state')
        until(lambda: ('uagv/v2/KIT/0002/order', b'KIT/0002') in thief.came, 'its own order')
        self.pass_on(gateway)
        self.assertEqual({data for _, data in thief.came}, {b'KIT/0002'})

    def test_the_gateway_is_no_vehicle(self) -> None:
        """With the password of the gateway somebody publishes states: they are not passed on."""
        gateway = self.reader('gateway', 'uagv/v2/+/+/state')
        gateway.publish(TOPIC + 'state', b'forged')
        self.pass_on(gateway)
        self.assertEqual(len(gateway.came), 1)

    def test_a_will_on_the_topic_of_another(self) -> None:
        """A vehicle leaves a last will for another one, and its connection breaks: the will is not
        passed on."""
        gateway = self.reader('gateway', 'uagv/v2/+/+/state', 'uagv/v2/+/+/connection')
        for vehicle in ('KIT/0001', 'KIT/0002'):
            will = (f'uagv/v2/{vehicle}/connection', vehicle.encode())
            self.connected('KIT/0002', will=will).__exit__()
        until(lambda: any(data == b'KIT/0002' for _, data in gateway.came), 'its own will')
        self.pass_on(gateway)
        self.assertNotIn(b'KIT/0001', [data for _, data in gateway.came])

    def test_the_client_id_of_another(self) -> None:
        """A vehicle connects with the client id of the gateway, and of another vehicle: their
        connections stay."""
        gateway = self.reader('gateway', 'uagv/v2/+/+/state')
        other = self.reader('KIT/0001', TOPIC + 'order')
        for name in ('gateway', 'KIT/0001'):
            self.connected('KIT/0002', name=name)
        self.pass_on(gateway)
        gateway.publish(TOPIC + 'order', b'order')
        until(lambda: other.came, 'the order')
        self.assertTrue(gateway.is_open and other.is_open)

    def test_long_messages(self) -> None:
        """A vehicle publishes a longer message than the gateway reads, which is dropped, and a
        longer packet, which ends its connection; the longest message arrives."""
        gateway = self.reader('gateway', 'uagv/v2/+/+/state')
        sender = self.connected('KIT/0001')
        longest = b'x' * inbox.LONGEST
        for data in (longest + b'x', longest, b'short'):
            sender.publish(TOPIC + 'state', data)
        until(lambda: len(gateway.came) >= 2, 'the states')
        self.assertEqual([data for _, data in gateway.came], [longest, b'short'])
        with contextlib.suppress(OSError):
            sender.publish(TOPIC + 'state', longest + bytes(20_000))
        until(lambda: not sender.is_open, 'the end of the connection')
        self.pass_on(gateway)
        self.assertEqual(len(gateway.came), 3)

    @with_paho
    def test_a_transport(self) -> None:
        """With all of this the gateway and a vehicle still do their work; and the password is in no
        argument that other users see."""
        self.write('password', USERS['gateway'] + '\n')
        words = ['--user', 'gateway', '--password-file', self.path('password')]
        process = self.gateway(self.desk.address, *words, '--ca', self.path('certs/server.pem'))
        vehicle = self.reader('KIT/0001', TOPIC + 'order', TOPIC + 'instantActions')
        thief = self.connected('KIT/0002')
        number = 0

        def is_ready() -> bool:
            nonlocal number
            number += 1
            thief.publish(TOPIC + 'state', state(4294967295))
            vehicle.publish(TOPIC + 'state', state(number))
            return self.desk.vehicle(KIT1).ready

        until(is_ready, 'the vehicle is ready')
        self.assertLessEqual(self.header() or 0, number)
        self.desk.add_job('J1', 'L1', 'B')
        self.desk.start_order('O1', KIT1, job='J1', edges=2)
        until(lambda: vehicle.came, 'the order')
        self.assertEqual(json.loads(vehicle.came[0][1])['orderId'], 'O1')
        with open(f'/proc/{process.pid}/cmdline', 'rb') as file:
            self.assertNotIn(USERS['gateway'].encode(), file.read())

    @with_paho
    def test_a_broker_with_another_certificate(self) -> None:
        """A server has a certificate that the gateway does not trust, or that of another host: it
        is not given the password."""
        self.write('password', USERS['gateway'] + '\n')
        self.write('other.pem', self.another_authority())
        for ca, host in (('other.pem', 'localhost'), ('certs/server.pem', '127.0.0.1')):
            words = ['--user', 'gateway', '--password-file', self.path('password')]
            words += ['--ca', self.path(ca), '--broker', f'{host}:{self.port}']
            process = self.gateway(self.desk.address, *words)
            until(lambda: self.has_said('gateway', 'the broker is not trusted'), 'it is said')
            process.kill()
            process.wait(PATIENCE)
        self.assertFalse(self.has_said('broker', "u'gateway'"), self.said('broker'))

    def another_authority(self) -> str:
        """Returns a certificate that has signed none here."""
        line = ['openssl', 'req', '-x509', '-newkey', 'rsa:2048', '-nodes']
        line += ['-subj', '/CN=localhost', '-keyout', self.path('other.key')]
        return subprocess.run(line, check=True, capture_output=True, text=True).stdout


class BrokerCertificates(Configured):
    """The same by certificates, whose common names are the user names."""

    comments = (
        'cafile /etc/mosquitto/ca_certificates/vehicles.pem',
        'require_certificate true',
        'use_identity_as_username true',
    )
    without = ('password_file /etc/mosquitto/passwords',)

    def certify(self) -> None:
        """Also makes the authority of the vehicles, and the certificates of two."""
        super().certify()
        for line in guide_lines('  openssl '):
            is_authority = '-x509' in line and '/CN=vehicles' in line
            for user in ('KIT/0001',) if is_authority else ('KIT/0001', 'KIT/0002', 'gateway'):
                file, name = user.replace('/', '-'), user.replace('/', r'\/')
                made = line.replace('KIT-0001', file).replace(r'KIT\/0001', name)
                run = ['sh', '-ec', made]
                subprocess.run(run, check=True, capture_output=True, cwd=self.folder)
        os.replace(self.path('vehicles.pem'), self.path('ca_certificates/vehicles.pem'))
        os.chmod(self.path('ca_certificates/vehicles.pem'), 0o644)

    def by_certificate(self, user: str | None, claims: str | None = None) -> Client:
        """Connects with the certificate of a user, and claims to be another one."""
        context = ssl.create_default_context(cafile=self.path('certs/server.pem'))
        if user:
            file = self.path(user.replace('/', '-'))
            context.load_cert_chain(f'{file}.pem', f'{file}.key')
        made = Client(self.port, user=claims, context=context)
        self.addCleanup(made.__exit__)
        return made

    def test_who_is_who(self) -> None:
        """A vehicle claims to be another one, or the gateway: it stays the one of its certificate.
        Without a certificate nobody is let in."""
        self.assertIsNone(self.by_certificate(None, 'KIT/0001').code)
        gateway, first = self.by_certificate('gateway'), self.by_certificate('KIT/0001')
        gateway.subscribe('uagv/v2/+/+/state')
        first.subscribe('#', TOPIC + 'order')
        thief = self.by_certificate('KIT/0002', 'gateway')
        thief.subscribe('#', 'uagv/v2/KIT/0002/order', 'uagv/v2/+/+/state')
        self.assertEqual(thief.codes, [mqtt.TOPIC_REFUSED, 0, mqtt.TOPIC_REFUSED])
        for topic in ('KIT/0001/state', 'KIT/0001/order', 'KIT/0002/state'):
            thief.publish('uagv/v2/' + topic, b'of KIT/0002')
        first.publish(TOPIC + 'state', b'of KIT/0001')
        gateway.publish(TOPIC + 'order', b'of the gateway')
        until(lambda: len(gateway.came) > 1 and first.came, 'what is passed on')
        wanted = {(TOPIC + 'state', b'of KIT/0001'), ('uagv/v2/KIT/0002/state', b'of KIT/0002')}
        self.assertEqual(set(gateway.came), wanted)
        self.assertEqual((first.came, thief.came), ([(TOPIC + 'order', b'of the gateway')], []))

    @with_paho
    def test_a_gateway_by_its_certificate(self) -> None:
        """Without its certificate the gateway is not let in, and with it a state arrives."""
        words = ['--ca', self.path('certs/server.pem')]
        process = self.gateway(self.desk.address, *words)
        until(lambda: self.said('gateway'), 'it is said')
        self.assertFalse(self.has_said('gateway', 'the broker is connected'))
        process.kill()
        process.wait(PATIENCE)
        words += ['--cert', self.path('gateway.pem'), '--key', self.path('gateway.key')]
        self.gateway(self.desk.address, *words)
        until(lambda: self.has_said('gateway', 'the broker is connected'), 'the gateway')
        first, number = self.by_certificate('KIT/0001'), 0

        def is_told() -> bool:
            nonlocal number
            number += 1
            first.publish(TOPIC + 'state', state(number))
            return self.header() is not None

        until(is_told, 'a state at the desk')
