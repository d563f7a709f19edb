"""The numbers of OpenFlow 1.0 and their names, and the head of a message."""
import enum
import struct
from typing import NamedTuple

VERSION = 1
HEADER = struct.Struct(">BBHI")
NO_BUFFER = 0xFFFFFFFF
LARGEST_PHYSICAL_PORT = 0xFF00
# The VLAN of a packet without a tag.
UNTAGGED = 0xFFFF


class Malformed(ValueError):
    """Bytes that have no form in OpenFlow 1.0. The text says what is wrong."""


class Header(NamedTuple):
    """What each message begins with. The length counts these eight bytes too."""

    version: int
    type: int
    length: int
    xid: int

    @classmethod
    def of(cls, message):
        return cls(*HEADER.unpack_from(message))


class MessageType(enum.IntEnum):
    HELLO = 0
    ERROR = 1
    ECHO_REQUEST = 2
    ECHO_REPLY = 3
    VENDOR = 4
    FEATURES_REQUEST = 5
    FEATURES_REPLY = 6
    GET_CONFIG_REQUEST = 7
    GET_CONFIG_REPLY = 8
    SET_CONFIG = 9
    PACKET_IN = 10
    FLOW_REMOVED = 11
    PORT_STATUS = 12
    PACKET_OUT = 13
    FLOW_MOD = 14
    PORT_MOD = 15
    STATS_REQUEST = 16
    STATS_REPLY = 17
    BARRIER_REQUEST = 18
    BARRIER_REPLY = 19
    QUEUE_GET_CONFIG_REQUEST = 20
    QUEUE_GET_CONFIG_REPLY = 21


class Port(enum.IntEnum):
    """The ports that aren't physical."""

    IN_PORT = 0xFFF8
    TABLE = 0xFFF9
    NORMAL = 0xFFFA
    FLOOD = 0xFFFB
    ALL = 0xFFFC
    CONTROLLER = 0xFFFD
    LOCAL = 0xFFFE
    NONE = 0xFFFF


class PortConfig(enum.IntFlag):
    PORT_DOWN = 1
    NO_STP = 2
    NO_RECV = 4
    NO_RECV_STP = 8
    NO_FLOOD = 16
    NO_FWD = 32
    NO_PACKET_IN = 64


class PortState(enum.IntFlag):
    """The state of a port; from STP_LEARN on a number in two bits."""

    LINK_DOWN = 1
    STP_LEARN = 1 << 8
    STP_FORWARD = 2 << 8
    STP_BLOCK = 3 << 8


class PortFeature(enum.IntFlag):
    TEN_MB_HD = 1 << 0
    TEN_MB_FD = 1 << 1
    HUNDRED_MB_HD = 1 << 2
    HUNDRED_MB_FD = 1 << 3
    ONE_GB_HD = 1 << 4
    ONE_GB_FD = 1 << 5
    TEN_GB_FD = 1 << 6
    COPPER = 1 << 7
    FIBER = 1 << 8
    AUTONEG = 1 << 9
    PAUSE = 1 << 10
    PAUSE_ASYM = 1 << 11


class Capability(enum.IntFlag):
    FLOW_STATS = 1
    TABLE_STATS = 2
    PORT_STATS = 4
    STP = 8
    RESERVED = 16
    IP_REASM = 32
    QUEUE_STATS = 64
    ARP_MATCH_IP = 128


class ActionType(enum.IntEnum):
    OUTPUT = 0
    SET_VLAN_VID = 1
    SET_VLAN_PCP = 2
    STRIP_VLAN = 3
    SET_DL_SRC = 4
    SET_DL_DST = 5
    SET_NW_SRC = 6
    SET_NW_DST = 7
    SET_NW_TOS = 8
    SET_TP_SRC = 9
    SET_TP_DST = 10
    ENQUEUE = 11
    VENDOR = 0xFFFF


class PacketInReason(enum.IntEnum):
    NO_MATCH = 0
    ACTION = 1


class FlowRemovedReason(enum.IntEnum):
    IDLE_TIMEOUT = 0
    HARD_TIMEOUT = 1
    DELETE = 2


class PortReason(enum.IntEnum):
    ADD = 0
    DELETE = 1
    MODIFY = 2


class FlowModCommand(enum.IntEnum):
    ADD = 0
    MODIFY = 1
    MODIFY_STRICT = 2
    DELETE = 3
    DELETE_STRICT = 4


class FlowModFlag(enum.IntFlag):
    SEND_FLOW_REM = 1
    CHECK_OVERLAP = 2
    EMERG = 4


class FragmentHandling(enum.IntEnum):
    """The two low bits of a switch's configuration: what it does with fragments."""

    FRAG_NORMAL = 0
    FRAG_DROP = 1
    FRAG_REASM = 2


class StatsType(enum.IntEnum):
    DESC = 0
    FLOW = 1
    AGGREGATE = 2
    TABLE = 3
    PORT = 4
    QUEUE = 5
    VENDOR = 0xFFFF


class StatsFlag(enum.IntFlag):
    MORE = 1


class QueueProperty(enum.IntEnum):
    NONE = 0
    MIN_RATE = 1


# Errors (section 5.4.4), under the standard's own names.


class ErrorType(enum.IntEnum):
    OFPET_HELLO_FAILED = 0
    OFPET_BAD_REQUEST = 1
    OFPET_BAD_ACTION = 2
    OFPET_FLOW_MOD_FAILED = 3
    OFPET_PORT_MOD_FAILED = 4
    OFPET_QUEUE_OP_FAILED = 5


class HelloFailed(enum.IntEnum):
    OFPHFC_INCOMPATIBLE = 0
    OFPHFC_EPERM = 1


class BadRequest(enum.IntEnum):
    OFPBRC_BAD_VERSION = 0
    OFPBRC_BAD_TYPE = 1
    OFPBRC_BAD_STAT = 2
    OFPBRC_BAD_VENDOR = 3
    OFPBRC_BAD_SUBTYPE = 4
    OFPBRC_EPERM = 5
    OFPBRC_BAD_LEN = 6
    OFPBRC_BUFFER_EMPTY = 7
    OFPBRC_BUFFER_UNKNOWN = 8


class BadAction(enum.IntEnum):
    OFPBAC_BAD_TYPE = 0
    OFPBAC_BAD_LEN = 1
    OFPBAC_BAD_VENDOR = 2
    OFPBAC_BAD_VENDOR_TYPE = 3
    OFPBAC_BAD_OUT_PORT = 4
    OFPBAC_BAD_ARGUMENT = 5
    OFPBAC_EPERM = 6
    OFPBAC_TOO_MANY = 7
    OFPBAC_BAD_QUEUE = 8


class FlowModFailed(enum.IntEnum):
    OFPFMFC_ALL_TABLES_FULL = 0
    OFPFMFC_OVERLAP = 1
    OFPFMFC_EPERM = 2
    OFPFMFC_BAD_EMERG_TIMEOUT = 3
    OFPFMFC_BAD_COMMAND = 4
    OFPFMFC_UNSUPPORTED = 5


class PortModFailed(enum.IntEnum):
    OFPPMFC_BAD_PORT = 0
    OFPPMFC_BAD_HW_ADDR = 1


class QueueOpFailed(enum.IntEnum):
    OFPQOFC_BAD_PORT = 0
    OFPQOFC_BAD_QUEUE = 1
    OFPQOFC_EPERM = 2


ERROR_CODES = {
    ErrorType.OFPET_HELLO_FAILED: HelloFailed,
    ErrorType.OFPET_BAD_REQUEST: BadRequest,
    ErrorType.OFPET_BAD_ACTION: BadAction,
    ErrorType.OFPET_FLOW_MOD_FAILED: FlowModFailed,
    ErrorType.OFPET_PORT_MOD_FAILED: PortModFailed,
    ErrorType.OFPET_QUEUE_OP_FAILED: QueueOpFailed,
}
