"""Shows, for each attack on the programs, the most harmful first, that it does no harm: a class of
`tests/attacks` stands under each line, and says what an attacker does and what must happen."""
# A page of another site, open in a browser that may reach the desk, commands it by a form or a
# request.
from tests.attacks.way_in import FormOfAForeignPage, RequestOfAForeignPage
from tests.attacks.board import ForeignPage

# A program of another user of the machine reaches the desk's port or socket.
from tests.attacks.machine import AnotherUserOfTheMachine, AnotherUserWithoutSystemd
from tests.attacks.clients import OverAUnixSocket
from tests.attacks.board import OtherUser
from tests.attacks.local_users import LocalUsers
from tests.attacks.stuck_programs import StuckPrograms

# A gateway, or a reader, commands by the page of the board or by a path that is read in two ways;
# no command is unrecorded.
from tests.attacks.way_in import CommandOfAGateway, CommandOfAReader
from tests.attacks.record_lines import Record

# Anybody fills the disk by a site of nginx that is not the desk's; the record ends at a rotation.
from tests.attacks.record import OddBytes, OtherSites, RefusedReader, RotatedRecord

# The board's token is taken by a request within the body of another one; what is none reaches the
# board.
from tests.attacks.board_bytes import Desync
from tests.attacks.tokens import OddTokens

# Vehicles that nobody knows, messages that are too long or hostile, and what the broker lets a
# vehicle write.
from tests.attacks.gateway import HostileMessages, InventedVehicles, LongMessages
from tests.attacks.gateway_servers import AnotherBroker
from tests.attacks.broker import BrokerCertificates, BrokerRights

# Connections that are kept lock others out of nginx and the broker.
from tests.attacks.connections import BytesOfAnAddress, ConnectionsOfAnAddress
from tests.attacks.crowds import SilentConnections
from tests.attacks.broker import BrokerConnections, BrokerOfAllAddresses
from tests.attacks.broker_load import Subscriptions

# A reader keeps the others from the desk or the board; passwords are tried, and names found out.
from tests.attacks.board_readers import GoneReaders, Histories, Questions
from tests.attacks.crowds import PagesOfReaders, Starvation, UnreadReports
from tests.attacks.reports import KeptReports, ReportsOfReaders
from tests.attacks.way_in import NamesOfUsers, Passwords

# Another server answers on the desk's port: to the client and `ask`, the dispatcher, the gateway
# and the board.
from tests.attacks.clients import AnotherServer, AnyAnswer
from tests.attacks.client_streams import BytesThatDrip, EndlessAnswers
from tests.attacks.dispatcher import AnotherServerForTheDispatcher
from tests.attacks.gateway_servers import AnotherServer as AnotherServerForTheGateway
from tests.attacks.board_desk import NoDesk, OtherDesk

# What vehicles and gateways say of themselves to a board, and a board that hears nothing of it.
from tests.attacks.board_bytes import HostileWords
from tests.attacks.gateway import StuckBoards

# What lies in the place of the lock of a shared volume, and what other machines say.
from tests.attacks.standby import HostileStandby

# Files that are none, or have no tables, in the place of a desk's file, and folders for its copies.
from tests.attacks.files import Fuzz, NoRegularFile
from tests.attacks.file_tables import NoTables
from tests.attacks.copies import Copies
from tests.attacks.exchanged import ExchangedFile, ExchangedLinks

# Escapes and line ends of others reach a terminal.
from tests.attacks.client_values import TerminalEscapes
from tests.attacks.files import Texts

# The disk is full under the board's record of commands.
from tests.attacks.board_load import FullDisk

# Many connections and pages of one program stop the board.
from tests.attacks.board_load import Crowd, MadeOnce

# Values of a wrong type or form are sent on to the desk.
from tests.attacks.board_bytes import Values
from tests.attacks.client_values import WrongValues

# A service that was taken over goes on to the rest of the machine.
from tests.attacks.machine import Units

__all__ = [
    'AnotherBroker',
    'AnotherServer',
    'AnotherServerForTheDispatcher',
    'AnotherServerForTheGateway',
    'AnotherUserOfTheMachine',
    'AnotherUserWithoutSystemd',
    'AnyAnswer',
    'BrokerCertificates',
    'BrokerConnections',
    'BrokerOfAllAddresses',
    'BrokerRights',
    'BytesOfAnAddress',
    'BytesThatDrip',
    'CommandOfAGateway',
    'CommandOfAReader',
    'ConnectionsOfAnAddress',
    'Copies',
    'Crowd',
    'Desync',
    'EndlessAnswers',
    'ExchangedFile',
    'ExchangedLinks',
    'ForeignPage',
    'FormOfAForeignPage',
    'FullDisk',
    'Fuzz',
    'GoneReaders',
    'Histories',
    'HostileMessages',
    'HostileStandby',
    'HostileWords',
    'InventedVehicles',
    'KeptReports',
    'LocalUsers',
    'LongMessages',
    'MadeOnce',
    'NamesOfUsers',
    'NoDesk',
    'NoRegularFile',
    'NoTables',
    'OddBytes',
    'OddTokens',
    'OtherDesk',
    'OtherSites',
    'OtherUser',
    'OverAUnixSocket',
    'PagesOfReaders',
    'Passwords',
    'Questions',
    'Record',
    'RefusedReader',
    'ReportsOfReaders',
    'RequestOfAForeignPage',
    'RotatedRecord',
    'SilentConnections',
    'Starvation',
    'StuckBoards',
    'StuckPrograms',
    'Subscriptions',
    'TerminalEscapes',
    'Texts',
    'Units',
    'UnreadReports',
    'Values',
    'WrongValues',
]
