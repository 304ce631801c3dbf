/* The words of numbers, and the version: plain C, which is part of both libraries and not proved. bindings/names.txt says which word each
 * number has to have; bindings/names.py writes it from the sources of the crates, and a test compares all that is said here with it. */
#include "cqlp.h"

static const char *const CODE[] = {
    [CQLP_DONE] = "Done", [CQLP_BAD_TEXT] = "BadText", [CQLP_BAD_CELL] = "BadCell", [CQLP_BAD_ENTRIES] = "BadEntries",
    [CQLP_BAD_DEPTH] = "BadDepth", [CQLP_NO_MEMORY] = "NoMemory", [CQLP_NO_DECODER] = "NoDecoder",
    [CQLP_IN_USE] = "InUse", [CQLP_NO_CLIENT] = "NoClient", [CQLP_BAD_SLOTS] = "BadSlots",
    [CQLP_NO_REQUEST] = "NoRequest", [CQLP_BAD_PHASE] = "BadPhase", [CQLP_SPENT] = "Spent", [CQLP_FULL] = "Full",
    [CQLP_NO_FRAME] = "NoFrame", [CQLP_NOT_RESPONSE] = "NotResponse", [CQLP_NO_SUCH_STREAM] = "NoSuchStream",
    [CQLP_WRONG_OPCODE] = "WrongOpcode", [CQLP_NOT_CANCELLED] = "NotCancelled", [CQLP_COMPRESSED] = "Compressed",
    [CQLP_BAD_OPCODE] = "BadOpcode", [CQLP_BAD_DIRECTION] = "BadDirection", [CQLP_BAD_LENGTH] = "BadLength",
    [CQLP_NO_SERVER] = "NoServer", [CQLP_NOT_REQUEST] = "NotRequest", [CQLP_BAD_ID] = "BadId", [CQLP_ID_TAKEN] = "IdTaken",
    [CQLP_NO_ROOM] = "NoRoom", [CQLP_NO_TYPES] = "NoTypes", [CQLP_ENDED] = "Ended", [CQLP_OFF] = "Off",
    [CQLP_BUSY] = "Busy", [CQLP_OPEN] = "Open", [CQLP_TOO_MANY] = "TooMany", [CQLP_TOO_DEEP] = "TooDeep",
    [CQLP_NOT_REFUSED] = "NotRefused", [CQLP_IN_HEADER] = "InHeader", [CQLP_TOO_FAR] = "TooFar",
    [CQLP_NO_EVENT] = "NoEvent", [CQLP_MISPLACED] = "Misplaced", [CQLP_UNBUILT] = "Unbuilt",
    [CQLP_TOO_MANY_FIELDS] = "TooManyFields", [CQLP_TOO_MANY_BYTES] = "TooManyBytes", [CQLP_LEFT_OVER] = "LeftOver",
    [CQLP_NO_SUCH_FRAME] = "NoSuchFrame", [CQLP_NO_PAGE] = "NoPage", [CQLP_NO_ROWS] = "NoRows", [CQLP_NOT_PAGE] = "NotPage",
    [CQLP_TOO_MANY_ROWS] = "TooManyRows", [CQLP_BAD_SIZE] = "BadSize", [CQLP_PAST_SIZE] = "PastSize", [CQLP_NOT_ENDED] = "NotEnded",
    [CQLP_NO_TYPE] = "NoType", [CQLP_NO_VALUE] = "NoValue", [CQLP_CELLS_MISSING] = "CellsMissing", [CQLP_BYTES_MISSING] = "BytesMissing",
    [CQLP_TOO_MANY_COLUMNS] = "TooManyColumns", [CQLP_BAD_KIND] = "BadKind",
    [CQLP_UNSUPPORTED] = "Unsupported", [CQLP_NO_COLUMNS] = "NoColumns", [CQLP_NO_COLUMN] = "NoColumn",
    [CQLP_OTHER_LAYOUT] = "OtherLayout",
};

static const char *const STOP[] = {
    [CQLP_STOP_MORE] = "More", [CQLP_STOP_FULL] = "Full", [CQLP_STOP_REFUSED] = "Refused",
};

static const char *const END[] = {
    [CQLP_END_WHOLE] = "whole", [CQLP_END_CUT] = "cut", [CQLP_END_REFUSED] = "refused",
};

static const char *const TAG[] = {
    [CQLP_TAG_FRAME] = "Frame", [CQLP_TAG_BYTE] = "Byte", [CQLP_TAG_SHORT] = "Short", [CQLP_TAG_INT] = "Int",
    [CQLP_TAG_LONG] = "Long", [CQLP_TAG_UUID] = "Uuid", [CQLP_TAG_COUNT] = "Count", [CQLP_TAG_TEXT] = "Text",
    [CQLP_TAG_BYTES] = "Bytes", [CQLP_TAG_BOUND] = "Bound", [CQLP_TAG_INET] = "Inet",
    [CQLP_TAG_TYPE_NODE] = "TypeNode", [CQLP_TAG_LEAF] = "Leaf", [CQLP_TAG_NULL] = "Null", [CQLP_TAG_EMPTY] = "Empty",
    [CQLP_TAG_ENTER] = "Enter", [CQLP_TAG_LEAVE] = "Leave", [CQLP_TAG_PART] = "Part", [CQLP_TAG_END] = "End",
};

static const char *const MARK[] = {
    [CQLP_MARK_NONE] = "none", [CQLP_MARK_RESPONSE] = "response", [CQLP_MARK_NULL] = "null",
    [CQLP_MARK_UNSET] = "unset", [CQLP_MARK_LAST] = "last",
};

static const char *const OPCODE[] = {
    [CQLP_OPCODE_ERROR] = "ERROR", [CQLP_OPCODE_STARTUP] = "STARTUP", [CQLP_OPCODE_READY] = "READY",
    [CQLP_OPCODE_AUTHENTICATE] = "AUTHENTICATE", [CQLP_OPCODE_OPTIONS] = "OPTIONS",
    [CQLP_OPCODE_SUPPORTED] = "SUPPORTED", [CQLP_OPCODE_QUERY] = "QUERY", [CQLP_OPCODE_RESULT] = "RESULT",
    [CQLP_OPCODE_PREPARE] = "PREPARE", [CQLP_OPCODE_EXECUTE] = "EXECUTE", [CQLP_OPCODE_REGISTER] = "REGISTER",
    [CQLP_OPCODE_EVENT] = "EVENT", [CQLP_OPCODE_BATCH] = "BATCH", [CQLP_OPCODE_AUTH_CHALLENGE] = "AUTH_CHALLENGE",
    [CQLP_OPCODE_AUTH_RESPONSE] = "AUTH_RESPONSE", [CQLP_OPCODE_AUTH_SUCCESS] = "AUTH_SUCCESS",
};

static const char *const FIELD[] = {
    [CQLP_FIELD_TRACE_ID] = "TraceId", [CQLP_FIELD_WARNINGS] = "Warnings", [CQLP_FIELD_WARNING] = "Warning",
    [CQLP_FIELD_PAYLOAD_ITEMS] = "PayloadItems", [CQLP_FIELD_PAYLOAD_KEY] = "PayloadKey",
    [CQLP_FIELD_PAYLOAD_VALUE] = "PayloadValue", [CQLP_FIELD_OPTIONS] = "Options",
    [CQLP_FIELD_OPTION_KEY] = "OptionKey", [CQLP_FIELD_OPTION_VALUE] = "OptionValue",
    [CQLP_FIELD_OPTION_VALUES] = "OptionValues", [CQLP_FIELD_QUERY] = "Query",
    [CQLP_FIELD_STATEMENT_ID] = "StatementId", [CQLP_FIELD_EVENT_TYPES] = "EventTypes",
    [CQLP_FIELD_EVENT_TYPE] = "EventType", [CQLP_FIELD_TOKEN] = "Token", [CQLP_FIELD_BATCH_TYPE] = "BatchType",
    [CQLP_FIELD_ENTRIES] = "Entries", [CQLP_FIELD_ENTRY_KIND] = "EntryKind", [CQLP_FIELD_CONSISTENCY] = "Consistency",
    [CQLP_FIELD_BATCH_FLAGS] = "BatchFlags", [CQLP_FIELD_SERIAL_CONSISTENCY] = "SerialConsistency",
    [CQLP_FIELD_TIMESTAMP] = "Timestamp", [CQLP_FIELD_QUERY_FLAGS] = "QueryFlags", [CQLP_FIELD_VALUES] = "Values",
    [CQLP_FIELD_VALUE_NAME] = "ValueName", [CQLP_FIELD_VALUE] = "Value", [CQLP_FIELD_PAGE_SIZE] = "PageSize",
    [CQLP_FIELD_PAGING_STATE] = "PagingState", [CQLP_FIELD_CLASS] = "Class", [CQLP_FIELD_ERROR_CODE] = "ErrorCode",
    [CQLP_FIELD_MESSAGE] = "Message", [CQLP_FIELD_REQUIRED] = "Required", [CQLP_FIELD_ALIVE] = "Alive",
    [CQLP_FIELD_RECEIVED] = "Received", [CQLP_FIELD_BLOCK_FOR] = "BlockFor", [CQLP_FIELD_WRITE_TYPE] = "WriteType",
    [CQLP_FIELD_DATA_PRESENT] = "DataPresent", [CQLP_FIELD_FAILURES] = "Failures", [CQLP_FIELD_KEYSPACE] = "Keyspace",
    [CQLP_FIELD_NAME] = "Name", [CQLP_FIELD_ARGUMENTS] = "Arguments", [CQLP_FIELD_ARGUMENT] = "Argument",
    [CQLP_FIELD_TABLE] = "Table", [CQLP_FIELD_RESULT_KIND] = "ResultKind", [CQLP_FIELD_ROWS] = "Rows",
    [CQLP_FIELD_META_FLAGS] = "MetaFlags", [CQLP_FIELD_COLUMNS] = "Columns", [CQLP_FIELD_KEYS] = "Keys",
    [CQLP_FIELD_KEY_INDEX] = "KeyIndex", [CQLP_FIELD_COLUMN_NAME] = "ColumnName", [CQLP_FIELD_CHANGE] = "Change",
    [CQLP_FIELD_TARGET] = "Target", [CQLP_FIELD_ADDRESS] = "Address", [CQLP_FIELD_TYPE_NAME] = "TypeName",
    [CQLP_FIELD_FIELDS] = "Fields", [CQLP_FIELD_FIELD_NAME] = "FieldName",
};

static const char *const KIND[] = {
    [CQLP_KIND_CUSTOM] = "custom", [CQLP_KIND_ASCII] = "ascii", [CQLP_KIND_BIGINT] = "bigint",
    [CQLP_KIND_BLOB] = "blob", [CQLP_KIND_BOOLEAN] = "boolean", [CQLP_KIND_COUNTER] = "counter",
    [CQLP_KIND_DECIMAL] = "decimal", [CQLP_KIND_DOUBLE] = "double", [CQLP_KIND_FLOAT] = "float",
    [CQLP_KIND_INT] = "int", [CQLP_KIND_TIMESTAMP] = "timestamp", [CQLP_KIND_UUID] = "uuid",
    [CQLP_KIND_VARCHAR] = "varchar", [CQLP_KIND_VARINT] = "varint", [CQLP_KIND_TIMEUUID] = "timeuuid",
    [CQLP_KIND_INET] = "inet", [CQLP_KIND_DATE] = "date", [CQLP_KIND_TIME] = "time",
    [CQLP_KIND_SMALLINT] = "smallint", [CQLP_KIND_TINYINT] = "tinyint", [CQLP_KIND_LIST] = "list",
    [CQLP_KIND_MAP] = "map", [CQLP_KIND_SET] = "set", [CQLP_KIND_UDT] = "udt", [CQLP_KIND_TUPLE] = "tuple",
    [CQLP_KIND_RAW] = "raw",
};

static const char *const REASON[] = {
    [CQLP_REASON_BAD_VERSION] = "BadVersion", [CQLP_REASON_COMPRESSED] = "Compressed",
    [CQLP_REASON_BAD_OPCODE] = "BadOpcode", [CQLP_REASON_BAD_DIRECTION] = "BadDirection",
    [CQLP_REASON_BAD_LENGTH] = "BadLength", [CQLP_REASON_OVERRUN] = "Overrun", [CQLP_REASON_TOO_LONG] = "TooLong",
    [CQLP_REASON_BAD_UTF8] = "BadUtf8", [CQLP_REASON_BAD_VALUE_LENGTH] = "BadValueLength",
    [CQLP_REASON_BAD_INET] = "BadInet", [CQLP_REASON_BAD_COUNT] = "BadCount", [CQLP_REASON_BAD_TYPE] = "BadType",
    [CQLP_REASON_TOO_DEEP] = "TooDeep", [CQLP_REASON_TOO_MANY] = "TooMany",
    [CQLP_REASON_BAD_BATCH_KIND] = "BadBatchKind", [CQLP_REASON_BAD_BATCH_FLAGS] = "BadBatchFlags",
    [CQLP_REASON_BAD_SIZE] = "BadSize", [CQLP_REASON_BAD_SCALAR] = "BadScalar",
    [CQLP_REASON_EXTRA_IN_VALUE] = "ExtraInValue", [CQLP_REASON_STREAM_TOO_LONG] = "StreamTooLong",
};

static const char *const PHASE[] = {
    [CQLP_PHASE_FRESH] = "Fresh", [CQLP_PHASE_OPENING] = "Opening", [CQLP_PHASE_CHALLENGED] = "Challenged",
    [CQLP_PHASE_READY] = "Ready", [CQLP_PHASE_FAILED] = "Failed",
};

static const char *const REPLY[] = {
    [CQLP_REPLY_EVENT] = "Event", [CQLP_REPLY_ANSWER] = "Answer", [CQLP_REPLY_DROPPED] = "Dropped",
};

static const char *const LIMIT[] = {
    [CQLP_BAD_TEXT] = "text", [CQLP_BAD_CELL] = "cell", [CQLP_BAD_ENTRIES] = "entries", [CQLP_BAD_DEPTH] = "depth",
};

static const char *const RESULT[] = {
    [CQLP_RESULT_VOID] = "Void", [CQLP_RESULT_ROWS] = "Rows", [CQLP_RESULT_SET_KEYSPACE] = "SetKeyspace",
    [CQLP_RESULT_PREPARED] = "Prepared", [CQLP_RESULT_SCHEMA_CHANGE] = "SchemaChange",
};

static const char *const CONSISTENCY[] = {
    [CQLP_CONSISTENCY_ANY] = "ANY", [CQLP_CONSISTENCY_ONE] = "ONE", [CQLP_CONSISTENCY_TWO] = "TWO",
    [CQLP_CONSISTENCY_THREE] = "THREE", [CQLP_CONSISTENCY_QUORUM] = "QUORUM", [CQLP_CONSISTENCY_ALL] = "ALL",
    [CQLP_CONSISTENCY_LOCAL_QUORUM] = "LOCAL_QUORUM", [CQLP_CONSISTENCY_EACH_QUORUM] = "EACH_QUORUM",
    [CQLP_CONSISTENCY_SERIAL] = "SERIAL", [CQLP_CONSISTENCY_LOCAL_SERIAL] = "LOCAL_SERIAL",
    [CQLP_CONSISTENCY_LOCAL_ONE] = "LOCAL_ONE",
};

static const char *const BATCH[] = {
    [CQLP_BATCH_LOGGED] = "logged", [CQLP_BATCH_UNLOGGED] = "unlogged", [CQLP_BATCH_COUNTER] = "counter",
};

/* Codes of errors lie far apart. */
static const char *error_name(int64_t number) {
  switch (number) {
    case CQLP_ERROR_SERVER_ERROR: return "ServerError";
    case CQLP_ERROR_PROTOCOL_ERROR: return "ProtocolError";
    case CQLP_ERROR_AUTHENTICATION_ERROR: return "AuthenticationError";
    case CQLP_ERROR_UNAVAILABLE: return "Unavailable";
    case CQLP_ERROR_OVERLOADED: return "Overloaded";
    case CQLP_ERROR_IS_BOOTSTRAPPING: return "IsBootstrapping";
    case CQLP_ERROR_TRUNCATE_ERROR: return "TruncateError";
    case CQLP_ERROR_WRITE_TIMEOUT: return "WriteTimeout";
    case CQLP_ERROR_READ_TIMEOUT: return "ReadTimeout";
    case CQLP_ERROR_READ_FAILURE: return "ReadFailure";
    case CQLP_ERROR_FUNCTION_FAILURE: return "FunctionFailure";
    case CQLP_ERROR_WRITE_FAILURE: return "WriteFailure";
    case CQLP_ERROR_SYNTAX_ERROR: return "SyntaxError";
    case CQLP_ERROR_UNAUTHORIZED: return "Unauthorized";
    case CQLP_ERROR_INVALID: return "Invalid";
    case CQLP_ERROR_CONFIG_ERROR: return "ConfigError";
    case CQLP_ERROR_ALREADY_EXISTS: return "AlreadyExists";
    case CQLP_ERROR_UNPREPARED: return "Unprepared";
    default: return NULL;
  }
}

#define WORDS(group) {group, sizeof group / sizeof *group}

/* The words of each group, by their numbers; NULL where a number has none. */
static const struct {
  const char *const *words;
  size_t count;
} GROUPS[] = {
    [CQLP_GROUP_CODE] = WORDS(CODE),
    [CQLP_GROUP_STOP] = WORDS(STOP),
    [CQLP_GROUP_END] = WORDS(END),
    [CQLP_GROUP_TAG] = WORDS(TAG),
    [CQLP_GROUP_MARK] = WORDS(MARK),
    [CQLP_GROUP_OPCODE] = WORDS(OPCODE),
    [CQLP_GROUP_FIELD] = WORDS(FIELD),
    [CQLP_GROUP_KIND] = WORDS(KIND),
    [CQLP_GROUP_REASON] = WORDS(REASON),
    [CQLP_GROUP_PHASE] = WORDS(PHASE),
    [CQLP_GROUP_REPLY] = WORDS(REPLY),
    [CQLP_GROUP_LIMIT] = WORDS(LIMIT),
    [CQLP_GROUP_RESULT] = WORDS(RESULT),
    [CQLP_GROUP_CONSISTENCY] = WORDS(CONSISTENCY),
    [CQLP_GROUP_BATCH] = WORDS(BATCH),
};

const char *cqlp_name(uint32_t group, int64_t number) {
  if (group == CQLP_GROUP_ERROR) return error_name(number);
  if (group >= sizeof GROUPS / sizeof *GROUPS || number < 0 || (uint64_t)number >= GROUPS[group].count) return NULL;
  return GROUPS[group].words[number];
}

const char *cqlp_version(void) { return CQLP_VERSION; }

uint32_t cqlp_version_number(void) { return CQLP_VERSION_NUMBER; }
