"""The numbers of include/cqlp.h, by name. They never change; new ones come at the end of their group."""

from enum import IntEnum


class Stop(IntEnum):
    """Why a batch of events ends."""

    MORE = 0
    FULL = 1
    REFUSED = 2


class End(IntEnum):
    """How a stream ends."""

    WHOLE = 0
    CUT = 1
    REFUSED = 2


class Tag(IntEnum):
    """What an event is."""

    FRAME = 1
    BYTE = 2
    SHORT = 3
    INT = 4
    LONG = 5
    UUID = 6
    COUNT = 7
    TEXT = 8
    BYTES = 9
    BOUND = 10
    INET = 11
    TYPE_NODE = 12
    LEAF = 13
    NULL = 14
    EMPTY = 15
    ENTER = 16
    LEAVE = 17
    PART = 18
    END = 19


class Mark(IntEnum):
    """What the tag of an event leaves open."""

    NONE = 0
    RESPONSE = 1
    NULL = 2
    UNSET = 3
    LAST = 4


class Field(IntEnum):
    """The field of a message that an event has."""

    NONE = 0
    TRACE_ID = 1
    WARNINGS = 2
    WARNING = 3
    PAYLOAD_ITEMS = 4
    PAYLOAD_KEY = 5
    PAYLOAD_VALUE = 6
    OPTIONS = 7
    OPTION_KEY = 8
    OPTION_VALUE = 9
    OPTION_VALUES = 10
    QUERY = 11
    STATEMENT_ID = 12
    EVENT_TYPES = 13
    EVENT_TYPE = 14
    TOKEN = 15
    BATCH_TYPE = 16
    ENTRIES = 17
    ENTRY_KIND = 18
    CONSISTENCY = 19
    BATCH_FLAGS = 20
    SERIAL_CONSISTENCY = 21
    TIMESTAMP = 22
    QUERY_FLAGS = 23
    VALUES = 24
    VALUE_NAME = 25
    VALUE = 26
    PAGE_SIZE = 27
    PAGING_STATE = 28
    CLASS = 29
    ERROR_CODE = 30
    MESSAGE = 31
    REQUIRED = 32
    ALIVE = 33
    RECEIVED = 34
    BLOCK_FOR = 35
    WRITE_TYPE = 36
    DATA_PRESENT = 37
    FAILURES = 38
    KEYSPACE = 39
    NAME = 40
    ARGUMENTS = 41
    ARGUMENT = 42
    TABLE = 43
    RESULT_KIND = 44
    ROWS = 45
    META_FLAGS = 46
    COLUMNS = 47
    KEYS = 48
    KEY_INDEX = 49
    COLUMN_NAME = 50
    CHANGE = 51
    TARGET = 52
    ADDRESS = 53
    TYPE_NAME = 54
    FIELDS = 55
    FIELD_NAME = 56


class Kind(IntEnum):
    """The kind of a type: the id of its type option, section 4.2.5.2; RAW where the type of a cell is not known."""

    CUSTOM = 0x00
    ASCII = 0x01
    BIGINT = 0x02
    BLOB = 0x03
    BOOLEAN = 0x04
    COUNTER = 0x05
    DECIMAL = 0x06
    DOUBLE = 0x07
    FLOAT = 0x08
    INT = 0x09
    TIMESTAMP = 0x0b
    UUID = 0x0c
    VARCHAR = 0x0d
    VARINT = 0x0e
    TIMEUUID = 0x0f
    INET = 0x10
    DATE = 0x11
    TIME = 0x12
    SMALLINT = 0x13
    TINYINT = 0x14
    LIST = 0x20
    MAP = 0x21
    SET = 0x22
    UDT = 0x30
    TUPLE = 0x31
    RAW = 0xff


class Reason(IntEnum):
    """Why a stream is refused."""

    BAD_VERSION = 1
    COMPRESSED = 2
    BAD_OPCODE = 3
    BAD_DIRECTION = 4
    BAD_LENGTH = 5
    OVERRUN = 6
    TOO_LONG = 7
    BAD_UTF8 = 8
    BAD_VALUE_LENGTH = 9
    BAD_INET = 10
    BAD_COUNT = 11
    BAD_TYPE = 12
    TOO_DEEP = 13
    TOO_MANY = 14
    BAD_BATCH_KIND = 15
    BAD_BATCH_FLAGS = 16
    BAD_SIZE = 17
    BAD_SCALAR = 18
    EXTRA_IN_VALUE = 19
    STREAM_TOO_LONG = 20


class Opcode(IntEnum):
    """The opcode of a frame. Section 2.4."""

    ERROR = 0x00
    STARTUP = 0x01
    READY = 0x02
    AUTHENTICATE = 0x03
    OPTIONS = 0x05
    SUPPORTED = 0x06
    QUERY = 0x07
    RESULT = 0x08
    PREPARE = 0x09
    EXECUTE = 0x0a
    REGISTER = 0x0b
    EVENT = 0x0c
    BATCH = 0x0d
    AUTH_CHALLENGE = 0x0e
    AUTH_RESPONSE = 0x0f
    AUTH_SUCCESS = 0x10


class Phase(IntEnum):
    """How far the setting up of a connection has come. Sections 4.1.1 and 4.1.2."""

    FRESH = 1
    OPENING = 2
    CHALLENGED = 3
    READY = 4
    FAILED = 5


class ReplyKind(IntEnum):
    """What a response says to a client."""

    EVENT = 1
    ANSWER = 2
    DROPPED = 3


class ErrorCode(IntEnum):
    """The code of an error. Section 9."""

    SERVER_ERROR = 0x0000
    PROTOCOL_ERROR = 0x000a
    AUTHENTICATION_ERROR = 0x0100
    UNAVAILABLE = 0x1000
    OVERLOADED = 0x1001
    IS_BOOTSTRAPPING = 0x1002
    TRUNCATE_ERROR = 0x1003
    WRITE_TIMEOUT = 0x1100
    READ_TIMEOUT = 0x1200
    READ_FAILURE = 0x1300
    FUNCTION_FAILURE = 0x1400
    WRITE_FAILURE = 0x1500
    SYNTAX_ERROR = 0x2000
    UNAUTHORIZED = 0x2100
    INVALID = 0x2200
    CONFIG_ERROR = 0x2300
    ALREADY_EXISTS = 0x2400
    UNPREPARED = 0x2500


class ResultKind(IntEnum):
    """The kind of a result. Section 4.2.5."""

    VOID = 1
    ROWS = 2
    SET_KEYSPACE = 3
    PREPARED = 4
    SCHEMA_CHANGE = 5


class Consistency(IntEnum):
    """A level of consistency. Section 3."""

    ANY = 0
    ONE = 1
    TWO = 2
    THREE = 3
    QUORUM = 4
    ALL = 5
    LOCAL_QUORUM = 6
    EACH_QUORUM = 7
    SERIAL = 8
    LOCAL_SERIAL = 9
    LOCAL_ONE = 10


class BatchType(IntEnum):
    """The type of a batch. Section 4.1.7."""

    LOGGED = 0
    UNLOGGED = 1
    COUNTER = 2


class Group(IntEnum):
    """A group of numbers, for `cqlp.name`."""

    CODE = 1
    STOP = 2
    END = 3
    TAG = 4
    MARK = 5
    OPCODE = 6
    FIELD = 7
    KIND = 8
    REASON = 9
    PHASE = 10
    REPLY = 11
    LIMIT = 12
    ERROR = 13
    RESULT = 14
    CONSISTENCY = 15
    BATCH = 16


class Code(IntEnum):
    """What a call of the library answers."""

    DONE = 0
    BAD_TEXT = 1
    BAD_CELL = 2
    BAD_ENTRIES = 3
    BAD_DEPTH = 4
    NO_MEMORY = 5
    NO_DECODER = 6
    IN_USE = 7
    NO_CLIENT = 8
    BAD_SLOTS = 9
    NO_REQUEST = 10
    BAD_PHASE = 11
    SPENT = 12
    FULL = 13
    NO_FRAME = 14
    NOT_RESPONSE = 15
    NO_SUCH_STREAM = 16
    WRONG_OPCODE = 17
    NOT_CANCELLED = 18
    COMPRESSED = 19
    BAD_OPCODE = 20
    BAD_DIRECTION = 21
    BAD_LENGTH = 22
    NO_SERVER = 23
    NOT_REQUEST = 24
    BAD_ID = 25
    ID_TAKEN = 26
    NO_ROOM = 27
    NO_TYPES = 28
    ENDED = 29
    OFF = 30
    BUSY = 31
    OPEN = 32
    TOO_MANY = 33
    TOO_DEEP = 34
    NOT_REFUSED = 35
    IN_HEADER = 36
    TOO_FAR = 37
    NO_EVENT = 38
    MISPLACED = 39
    UNBUILT = 40
    TOO_MANY_FIELDS = 41
    TOO_MANY_BYTES = 42
    LEFT_OVER = 43
    NO_SUCH_FRAME = 44
    NO_PAGE = 45
    NO_ROWS = 46
    NOT_PAGE = 47
    TOO_MANY_ROWS = 48
    BAD_SIZE = 49
    PAST_SIZE = 50
    NOT_ENDED = 51
    NO_TYPE = 52
    NO_VALUE = 53
    CELLS_MISSING = 54
    BYTES_MISSING = 55
    TOO_MANY_COLUMNS = 60
    BAD_KIND = 61
    UNSUPPORTED = 62
    NO_COLUMNS = 63
    NO_COLUMN = 64
    OTHER_LAYOUT = 65
