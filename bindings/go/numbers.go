package cqlp

// The numbers of include/cqlp.h, by name. They never change; new ones come at the end of their group.

import "strconv"

// Tag is what an event is.
type Tag uint8

const (
	// TagFrame: number: the bytes of the body; extra: the stream id; opcode, flags; mark RESPONSE or NONE.
	TagFrame Tag = 1
	// TagByte: field; number.
	TagByte Tag = 2
	// TagShort: field; number.
	TagShort Tag = 3
	// TagInt: field; number.
	TagInt Tag = 4
	// TagLong: field; number.
	TagLong Tag = 5
	// TagUUID: field; bytes.
	TagUUID Tag = 6
	// TagCount: field; number: how many items follow.
	TagCount Tag = 7
	// TagText: field; content in UTF-8.
	TagText Tag = 8
	// TagBytes: field; content, or mark NULL.
	TagBytes Tag = 9
	// TagBound: field; content, or mark NULL or UNSET.
	TagBound Tag = 10
	// TagInet: field; bytes: the address, 4 or 16 octets; extra: the port.
	TagInet Tag = 11
	// TagTypeNode: kind of a type option; its parameters follow.
	TagTypeNode Tag = 12
	// TagLeaf: a scalar: row, column, level, kind, and what the kind says below.
	TagLeaf Tag = 13
	// TagNull: a value of a negative length: row, column, level.
	TagNull Tag = 14
	// TagEmpty: a value of no bytes: row, column, level.
	TagEmpty Tag = 15
	// TagEnter: a value with items begins: row, column, level, kind; number: how many.
	TagEnter Tag = 16
	// TagLeave: such a value ends: level; number: how many items it had.
	TagLeave Tag = 17
	// TagPart: a part of a long scalar: row, column, level; number: its offset; content; mark LAST or NONE.
	TagPart Tag = 18
	// TagEnd: the frame ends; number: bytes after its last field.
	TagEnd Tag = 19
)

var tagNames = map[Tag]string{
	TagFrame:    "Frame",
	TagByte:     "Byte",
	TagShort:    "Short",
	TagInt:      "Int",
	TagLong:     "Long",
	TagUUID:     "Uuid",
	TagCount:    "Count",
	TagText:     "Text",
	TagBytes:    "Bytes",
	TagBound:    "Bound",
	TagInet:     "Inet",
	TagTypeNode: "TypeNode",
	TagLeaf:     "Leaf",
	TagNull:     "Null",
	TagEmpty:    "Empty",
	TagEnter:    "Enter",
	TagLeave:    "Leave",
	TagPart:     "Part",
	TagEnd:      "End",
}

// String is its name as lines have it; a number that has none is itself.
func (n Tag) String() string { return named(tagNames[n], uint8(n)) }

// Mark is what the tag of an event leaves open.
type Mark uint8

const (
	MarkNone     Mark = 0
	MarkResponse Mark = 1
	MarkNull     Mark = 2
	MarkUnset    Mark = 3
	MarkLast     Mark = 4
)

var markNames = map[Mark]string{
	MarkNone:     "none",
	MarkResponse: "response",
	MarkNull:     "null",
	MarkUnset:    "unset",
	MarkLast:     "last",
}

// String is its name as lines have it; a number that has none is itself.
func (n Mark) String() string { return named(markNames[n], uint8(n)) }

// Field is the field of a message that an event has.
type Field uint8

const (
	// FieldTraceID: The id of the tracing session, a [uuid], where the header has the flag 02. Section 2.2.
	FieldTraceID Field = 1
	// FieldWarnings: How many warnings come, a [short], where the header has the flag 08. Section 2.2.
	FieldWarnings Field = 2
	// FieldWarning: One of them, a [string].
	FieldWarning Field = 3
	// FieldPayloadItems: How many items the custom payload has, a [short], where the header has the flag 04. Section 2.2.
	FieldPayloadItems Field = 4
	// FieldPayloadKey: The key of an item, a [string].
	FieldPayloadKey Field = 5
	// FieldPayloadValue: The value of an item, [bytes].
	FieldPayloadValue Field = 6
	// FieldOptions: How many options come, a [short]: of STARTUP, section 4.1.1, or of SUPPORTED, section 4.2.4.
	FieldOptions Field = 7
	// FieldOptionKey: The name of an option, a [string].
	FieldOptionKey Field = 8
	// FieldOptionValue: The value of an option, or one of its values, a [string].
	FieldOptionValue Field = 9
	// FieldOptionValues: How many values an option of SUPPORTED has, a [short].
	FieldOptionValues Field = 10
	// FieldQuery: The text of a query, a [long string]. Sections 4.1.4, 4.1.5 and 4.1.7.
	FieldQuery Field = 11
	// FieldStatementID: The id of a prepared statement, [short bytes]. Sections 4.1.6, 4.1.7, 4.2.5.4 and 9.
	FieldStatementID Field = 12
	// FieldEventTypes: How many types of events are asked for, a [short]. Section 4.1.8.
	FieldEventTypes Field = 13
	// FieldEventType: A type of events, a [string]: one that is asked for, or that of an EVENT. Sections 4.1.8 and 4.2.6.
	FieldEventType Field = 14
	// FieldToken: What either side says to authenticate, [bytes]. Sections 4.1.2, 4.2.7 and 4.2.8.
	FieldToken Field = 15
	// FieldBatchType: The kind of a batch, a [byte]: 0 logged, 1 unlogged, 2 of counters. Section 4.1.7.
	FieldBatchType Field = 16
	// FieldEntries: How many statements a batch has, a [short].
	FieldEntries Field = 17
	// FieldEntryKind: Whether a statement of a batch comes as a text, 0, or by the id of a prepared one, 1: a [byte].
	FieldEntryKind Field = 18
	// FieldConsistency: A level of consistency, a [short]. Section 3.
	FieldConsistency Field = 19
	// FieldBatchFlags: What a batch has after its consistency, a [byte]: 10 a serial consistency, 20 a timestamp.
	FieldBatchFlags Field = 20
	// FieldSerialConsistency: The level of consistency of the serial phase, a [short].
	FieldSerialConsistency Field = 21
	// FieldTimestamp: The time that the statements have by default, in microseconds from 1970, a [long].
	FieldTimestamp Field = 22
	// FieldQueryFlags: What a query has after its consistency, a [byte]. Section 4.1.4.
	FieldQueryFlags Field = 23
	// FieldValues: How many values are bound, a [short].
	FieldValues Field = 24
	// FieldValueName: The name of a bound value, a [string].
	FieldValueName Field = 25
	// FieldValue: A bound value, a [value].
	FieldValue Field = 26
	// FieldPageSize: How many rows a page of the result is to have, an [int].
	FieldPageSize Field = 27
	// FieldPagingState: Where the result goes on, [bytes]. Sections 4.1.4 and 4.2.5.2.
	FieldPagingState Field = 28
	// FieldClass: The name of a class, a [string]: of an authenticator, section 4.2.3, or of a custom type, section 4.2.5.2.
	FieldClass Field = 29
	// FieldErrorCode: What an ERROR is of, an [int]. Section 9.
	FieldErrorCode Field = 30
	// FieldMessage: What an ERROR says, a [string]. Section 4.2.1.
	FieldMessage Field = 31
	// FieldRequired: How many replicas had to be alive, an [int]. Section 9.
	FieldRequired Field = 32
	// FieldAlive: How many replicas were alive, an [int]. Section 9.
	FieldAlive Field = 33
	// FieldReceived: How many replicas answered, an [int]. Section 9.
	FieldReceived Field = 34
	// FieldBlockFor: How many replicas had to answer, an [int]. Section 9.
	FieldBlockFor Field = 35
	// FieldWriteType: What kind of write it was, a [string]. Section 9.
	FieldWriteType Field = 36
	// FieldDataPresent: Whether the replica that was asked for data answered, a [byte], 0 where it did not. Section 9.
	FieldDataPresent Field = 37
	// FieldFailures: How many replicas failed, an [int]. Section 9.
	FieldFailures Field = 38
	// FieldKeyspace: The name of a keyspace, a [string].
	FieldKeyspace Field = 39
	// FieldName: The name of a table, a type, a function or an aggregate, a [string]. Sections 4.2.5.5 and 9.
	FieldName Field = 40
	// FieldArguments: How many arguments a function has, a [short].
	FieldArguments Field = 41
	// FieldArgument: The type of an argument, a [string].
	FieldArgument Field = 42
	// FieldTable: The name of a table, a [string].
	FieldTable Field = 43
	// FieldResultKind: What a RESULT is, an [int]: 1 nothing, 2 rows, 3 a keyspace, 4 a prepared statement, 5 a change of the schema. Section 4.2.5.
	FieldResultKind Field = 44
	// FieldRows: How many rows come, an [int]. Section 4.2.5.2.
	FieldRows Field = 45
	// FieldMetaFlags: What the metadata have, an [int]: 1 one table for all columns, 2 more pages, 4 no columns. Section 4.2.5.2.
	FieldMetaFlags Field = 46
	// FieldColumns: How many columns there are, an [int].
	FieldColumns Field = 47
	// FieldKeys: How many of the bound values make the partition key, an [int]. Section 4.2.5.4.
	FieldKeys Field = 48
	// FieldKeyIndex: The place of one of them among the bound values, a [short].
	FieldKeyIndex Field = 49
	// FieldColumnName: The name of a column, a [string].
	FieldColumnName Field = 50
	// FieldChange: What was done, a [string]. Sections 4.2.5.5 and 4.2.6.
	FieldChange Field = 51
	// FieldTarget: What a change of the schema was done to, a [string]. Section 4.2.5.5.
	FieldTarget Field = 52
	// FieldAddress: The node that an event is about, an [inet]. Section 4.2.6.
	FieldAddress Field = 53
	// FieldTypeName: The name of a user defined type, a [string]. Section 4.2.5.2.
	FieldTypeName Field = 54
	// FieldFields: How many fields a user defined type or a tuple has, a [short].
	FieldFields Field = 55
	// FieldFieldName: The name of a field of a user defined type, a [string].
	FieldFieldName Field = 56
)

var fieldNames = map[Field]string{
	FieldTraceID:           "TraceId",
	FieldWarnings:          "Warnings",
	FieldWarning:           "Warning",
	FieldPayloadItems:      "PayloadItems",
	FieldPayloadKey:        "PayloadKey",
	FieldPayloadValue:      "PayloadValue",
	FieldOptions:           "Options",
	FieldOptionKey:         "OptionKey",
	FieldOptionValue:       "OptionValue",
	FieldOptionValues:      "OptionValues",
	FieldQuery:             "Query",
	FieldStatementID:       "StatementId",
	FieldEventTypes:        "EventTypes",
	FieldEventType:         "EventType",
	FieldToken:             "Token",
	FieldBatchType:         "BatchType",
	FieldEntries:           "Entries",
	FieldEntryKind:         "EntryKind",
	FieldConsistency:       "Consistency",
	FieldBatchFlags:        "BatchFlags",
	FieldSerialConsistency: "SerialConsistency",
	FieldTimestamp:         "Timestamp",
	FieldQueryFlags:        "QueryFlags",
	FieldValues:            "Values",
	FieldValueName:         "ValueName",
	FieldValue:             "Value",
	FieldPageSize:          "PageSize",
	FieldPagingState:       "PagingState",
	FieldClass:             "Class",
	FieldErrorCode:         "ErrorCode",
	FieldMessage:           "Message",
	FieldRequired:          "Required",
	FieldAlive:             "Alive",
	FieldReceived:          "Received",
	FieldBlockFor:          "BlockFor",
	FieldWriteType:         "WriteType",
	FieldDataPresent:       "DataPresent",
	FieldFailures:          "Failures",
	FieldKeyspace:          "Keyspace",
	FieldName:              "Name",
	FieldArguments:         "Arguments",
	FieldArgument:          "Argument",
	FieldTable:             "Table",
	FieldResultKind:        "ResultKind",
	FieldRows:              "Rows",
	FieldMetaFlags:         "MetaFlags",
	FieldColumns:           "Columns",
	FieldKeys:              "Keys",
	FieldKeyIndex:          "KeyIndex",
	FieldColumnName:        "ColumnName",
	FieldChange:            "Change",
	FieldTarget:            "Target",
	FieldAddress:           "Address",
	FieldTypeName:          "TypeName",
	FieldFields:            "Fields",
	FieldFieldName:         "FieldName",
}

// String is its name as lines have it; a number that has none is itself.
func (n Field) String() string { return named(fieldNames[n], uint8(n)) }

// Kind is the kind of a type: the id of its type option, section 4.2.5.2.
type Kind uint8

const (
	KindCustom    Kind = 0x00
	KindASCII     Kind = 0x01
	KindBigint    Kind = 0x02
	KindBlob      Kind = 0x03
	KindBoolean   Kind = 0x04
	KindCounter   Kind = 0x05
	KindDecimal   Kind = 0x06
	KindDouble    Kind = 0x07
	KindFloat     Kind = 0x08
	KindInt       Kind = 0x09
	KindTimestamp Kind = 0x0b
	KindUUID      Kind = 0x0c
	KindVarchar   Kind = 0x0d
	KindVarint    Kind = 0x0e
	KindTimeUUID  Kind = 0x0f
	KindInet      Kind = 0x10
	KindDate      Kind = 0x11
	KindTime      Kind = 0x12
	KindSmallint  Kind = 0x13
	KindTinyint   Kind = 0x14
	KindList      Kind = 0x20
	KindMap       Kind = 0x21
	KindSet       Kind = 0x22
	KindUDT       Kind = 0x30
	KindTuple     Kind = 0x31
	KindRaw       Kind = 0xff
)

var kindNames = map[Kind]string{
	KindCustom:    "custom",
	KindASCII:     "ascii",
	KindBigint:    "bigint",
	KindBlob:      "blob",
	KindBoolean:   "boolean",
	KindCounter:   "counter",
	KindDecimal:   "decimal",
	KindDouble:    "double",
	KindFloat:     "float",
	KindInt:       "int",
	KindTimestamp: "timestamp",
	KindUUID:      "uuid",
	KindVarchar:   "varchar",
	KindVarint:    "varint",
	KindTimeUUID:  "timeuuid",
	KindInet:      "inet",
	KindDate:      "date",
	KindTime:      "time",
	KindSmallint:  "smallint",
	KindTinyint:   "tinyint",
	KindList:      "list",
	KindMap:       "map",
	KindSet:       "set",
	KindUDT:       "udt",
	KindTuple:     "tuple",
	KindRaw:       "raw",
}

// String is its name as lines have it; a number that has none is itself.
func (n Kind) String() string { return named(kindNames[n], uint8(n)) }

// Reason is why a stream is refused.
type Reason uint8

const (
	// ReasonBadVersion: The first byte of a header is neither 04 nor 84.
	ReasonBadVersion Reason = 1
	// ReasonCompressed: A header's flags announce compression.
	ReasonCompressed Reason = 2
	// ReasonBadOpcode: No opcode has this number.
	ReasonBadOpcode Reason = 3
	// ReasonBadDirection: A request's opcode in a response, or the other way round.
	ReasonBadDirection Reason = 4
	// ReasonBadLength: A body's length that is negative or above 268,435,456.
	ReasonBadLength Reason = 5
	// ReasonOverrun: Past the end of the frame, or of the value around an element.
	ReasonOverrun Reason = 6
	// ReasonTooLong: Past the caller's limit on a text or a cell.
	ReasonTooLong Reason = 7
	// ReasonBadUTF8: A text that is not UTF-8.
	ReasonBadUTF8 Reason = 8
	// ReasonBadValueLength: The length of a [value] below -2.
	ReasonBadValueLength Reason = 9
	// ReasonBadInet: The address of an [inet] has neither 4 nor 16 bytes.
	ReasonBadInet Reason = 10
	// ReasonBadCount: A negative count, or a negative length of a text.
	ReasonBadCount Reason = 11
	// ReasonBadType: No type option has this id.
	ReasonBadType Reason = 12
	// ReasonTooDeep: A type past the caller's limit on nesting.
	ReasonTooDeep Reason = 13
	// ReasonTooMany: More type options than the caller's limit.
	ReasonTooMany Reason = 14
	// ReasonBadBatchKind: The kind of a batch's entry is neither 0 nor 1.
	ReasonBadBatchKind Reason = 15
	// ReasonBadBatchFlags: A batch's flags name values, or have a bit that only a query's have.
	ReasonBadBatchFlags Reason = 16
	// ReasonBadSize: A cell's length that its type does not have.
	ReasonBadSize Reason = 17
	// ReasonBadScalar: A cell's content that its type does not have.
	ReasonBadScalar Reason = 18
	// ReasonExtraInValue: Bytes of a value after its last item.
	ReasonExtraInValue Reason = 19
	// ReasonStreamTooLong: A frame that would begin past offset 2^63.
	ReasonStreamTooLong Reason = 20
)

var reasonNames = map[Reason]string{
	ReasonBadVersion:     "BadVersion",
	ReasonCompressed:     "Compressed",
	ReasonBadOpcode:      "BadOpcode",
	ReasonBadDirection:   "BadDirection",
	ReasonBadLength:      "BadLength",
	ReasonOverrun:        "Overrun",
	ReasonTooLong:        "TooLong",
	ReasonBadUTF8:        "BadUtf8",
	ReasonBadValueLength: "BadValueLength",
	ReasonBadInet:        "BadInet",
	ReasonBadCount:       "BadCount",
	ReasonBadType:        "BadType",
	ReasonTooDeep:        "TooDeep",
	ReasonTooMany:        "TooMany",
	ReasonBadBatchKind:   "BadBatchKind",
	ReasonBadBatchFlags:  "BadBatchFlags",
	ReasonBadSize:        "BadSize",
	ReasonBadScalar:      "BadScalar",
	ReasonExtraInValue:   "ExtraInValue",
	ReasonStreamTooLong:  "StreamTooLong",
}

// String is its name as lines have it; a number that has none is itself.
func (n Reason) String() string { return named(reasonNames[n], uint8(n)) }

// Error is its name: errors.Is finds the Reason of a Refusal.
func (n Reason) Error() string { return n.String() }

// End is how a stream ends.
type End uint8

const (
	EndWhole   End = 0
	EndCut     End = 1
	EndRefused End = 2
)

// Opcode is the opcode of a frame. Section 2.4.
type Opcode uint8

const (
	OpcodeError         Opcode = 0x00
	OpcodeStartup       Opcode = 0x01
	OpcodeReady         Opcode = 0x02
	OpcodeAuthenticate  Opcode = 0x03
	OpcodeOptions       Opcode = 0x05
	OpcodeSupported     Opcode = 0x06
	OpcodeQuery         Opcode = 0x07
	OpcodeResult        Opcode = 0x08
	OpcodePrepare       Opcode = 0x09
	OpcodeExecute       Opcode = 0x0a
	OpcodeRegister      Opcode = 0x0b
	OpcodeEvent         Opcode = 0x0c
	OpcodeBatch         Opcode = 0x0d
	OpcodeAuthChallenge Opcode = 0x0e
	OpcodeAuthResponse  Opcode = 0x0f
	OpcodeAuthSuccess   Opcode = 0x10
)

var opcodeNames = map[Opcode]string{
	OpcodeError:         "ERROR",
	OpcodeStartup:       "STARTUP",
	OpcodeReady:         "READY",
	OpcodeAuthenticate:  "AUTHENTICATE",
	OpcodeOptions:       "OPTIONS",
	OpcodeSupported:     "SUPPORTED",
	OpcodeQuery:         "QUERY",
	OpcodeResult:        "RESULT",
	OpcodePrepare:       "PREPARE",
	OpcodeExecute:       "EXECUTE",
	OpcodeRegister:      "REGISTER",
	OpcodeEvent:         "EVENT",
	OpcodeBatch:         "BATCH",
	OpcodeAuthChallenge: "AUTH_CHALLENGE",
	OpcodeAuthResponse:  "AUTH_RESPONSE",
	OpcodeAuthSuccess:   "AUTH_SUCCESS",
}

// String is its name as the standard has it; a number that has none is itself.
func (n Opcode) String() string { return named(opcodeNames[n], uint8(n)) }

// Code is what a call of the library answers where it is not done. It is an error, so errors.Is(err, CodeBadPhase) says whether it is one.
type Code uint32

const (
	// CodeInUse: the handle has a decoder, or a core, already.
	CodeInUse Code = 7
	// CodeBadSlots: the number of slots is not from 1 to 32768.
	CodeBadSlots Code = 9
	// CodeNoRequest: the opcode is no request's.
	CodeNoRequest Code = 10
	// CodeBadPhase: requests of this kind may not begin in the current phase.
	CodeBadPhase Code = 11
	// CodeSpent: 2^64 - 1 requests have begun.
	CodeSpent Code = 12
	// CodeFull: each slot has a request that waits for its reply.
	CodeFull Code = 13
	// CodeNoFrame: the event is none that begins a frame.
	CodeNoFrame Code = 14
	// CodeNotResponse: a request came.
	CodeNotResponse Code = 15
	// CodeNoSuchStream: no request is open under the stream id of the response.
	CodeNoSuchStream Code = 16
	// CodeWrongOpcode: the response answers no request of the kind that is open under its stream id.
	CodeWrongOpcode Code = 17
	// CodeNotCancelled: the request does not wait, was cancelled before, or sets up the connection.
	CodeNotCancelled Code = 18
	// CodeCompressed: the flag 01 is set.
	CodeCompressed Code = 19
	// CodeBadOpcode: no opcode has this number.
	CodeBadOpcode Code = 20
	// CodeBadDirection: a request's opcode in a response, or the other way round.
	CodeBadDirection Code = 21
	// CodeBadLength: the body is longer than 268435456 bytes.
	CodeBadLength Code = 22
	// CodeNotRequest: a response came, or its opcode is no request's.
	CodeNotRequest Code = 24
	// CodeBadID: the stream id is negative, or none of the core's slots.
	CodeBadID Code = 25
	// CodeIDTaken: a request is open under this stream id.
	CodeIDTaken Code = 26
	// CodeNoRoom: there are more bytes than there is room for.
	CodeNoRoom Code = 27
	// CodeNoTypes: there is no table of types.
	CodeNoTypes Code = 28
	// CodeEnded: the stream was refused.
	CodeEnded Code = 29
	// CodeOff: the limits say that cells are not read by their types.
	CodeOff Code = 30
	// CodeBusy: a table that was given types the frame under way.
	CodeBusy Code = 31
	// CodeOpen: a type of the table is not whole.
	CodeOpen Code = 32
	// CodeTooMany: the table has more type options than the limit on `entries`.
	CodeTooMany Code = 33
	// CodeTooDeep: the types are nested deeper than the limit on `depth`.
	CodeTooDeep Code = 34
	// CodeNotRefused: nothing is refused.
	CodeNotRefused Code = 35
	// CodeInHeader: a header is refused, so nobody knows where its frame ends.
	CodeInHeader Code = 36
	// CodeTooFar: the frame ends past the greatest offset.
	CodeTooFar Code = 37
	// CodeNoEvent: no event is like this one.
	CodeNoEvent Code = 38
	// CodeMisplaced: an event of another place.
	CodeMisplaced Code = 39
	// CodeUnbuilt: a part of a scalar of a cell.
	CodeUnbuilt Code = 40
	// CodeTooManyFields: there are more than 268435456 fields.
	CodeTooManyFields Code = 41
	// CodeTooManyBytes: the contents have more than 268435456 bytes.
	CodeTooManyBytes Code = 42
	// CodeLeftOver: there are bytes after the contents of the events.
	CodeLeftOver Code = 43
	// CodeNoSuchFrame: no frame has these events.
	CodeNoSuchFrame Code = 44
	// CodeNoPage: the handle has no page.
	CodeNoPage Code = 45
	// CodeNoRows: the last event of a head is no count of rows.
	CodeNoRows Code = 46
	// CodeNotPage: the head is that of another frame than a page.
	CodeNotPage Code = 47
	// CodeTooManyRows: there are more than 2147483647 rows.
	CodeTooManyRows Code = 48
	// CodeBadSize: no call answers it.
	CodeBadSize Code = 49
	// CodePastSize: the cells would have more bytes than were said.
	CodePastSize Code = 50
	// CodeNotEnded: the last cell has begun and not ended.
	CodeNotEnded Code = 51
	// CodeNoType: the type of a column is the type of no cell.
	CodeNoType Code = 52
	// CodeNoValue: no value of the column's type has these events.
	CodeNoValue Code = 53
	// CodeCellsMissing: there are fewer cells than rows times columns.
	CodeCellsMissing Code = 54
	// CodeBytesMissing: the cells have fewer bytes than were said.
	CodeBytesMissing Code = 55
	// CodeTooManyColumns: there are more columns than the limits say.
	CodeTooManyColumns Code = 60
	// CodeBadKind: no kind has this number.
	CodeBadKind Code = 61
	// CodeUnsupported: values of the kind have items.
	CodeUnsupported Code = 62
	// CodeNoColumns: the handle has no columns.
	CodeNoColumns Code = 63
	// CodeNoColumn: there is no column of this number.
	CodeNoColumn Code = 64
	// CodeOtherLayout: the package was compiled with a header whose structs lie otherwise than the library's.
	CodeOtherLayout Code = 65
)

// Error is its name, as BadPhase.
func (n Code) Error() string { return "cqlp: " + wordOf(GroupCode, int64(n)) }

// Phase is how far the setting up of a connection has come. Sections 4.1.1 and 4.1.2.
type Phase uint8

const (
	// PhaseFresh: no STARTUP yet: OPTIONS and STARTUP may begin.
	PhaseFresh Phase = 1
	// PhaseOpening: a STARTUP or AUTH_RESPONSE waits for its reply: nothing may begin.
	PhaseOpening Phase = 2
	// PhaseChallenged: the server asked for AUTH_RESPONSE, which alone may begin.
	PhaseChallenged Phase = 3
	// PhaseReady: set up: all but STARTUP and AUTH_RESPONSE may begin.
	PhaseReady Phase = 4
	// PhaseFailed: setting up ended by an ERROR: nothing may begin.
	PhaseFailed Phase = 5
)

// String is its name; a number that has none is itself.
func (n Phase) String() string { return wordOf(GroupPhase, int64(n)) }

// ReplyKind is what a response says to a client.
type ReplyKind uint8

const (
	// ReplyEvent: the server pushed an event: it is the reply to nothing.
	ReplyEvent ReplyKind = 1
	// ReplyAnswer: it is the reply to the request of this ticket.
	ReplyAnswer ReplyKind = 2
	// ReplyDropped: the same, and the request was cancelled.
	ReplyDropped ReplyKind = 3
)

// String is its name; a number that has none is itself.
func (n ReplyKind) String() string { return wordOf(GroupReply, int64(n)) }

// ErrorCode is what an ERROR is of. Section 9.
type ErrorCode int32

const (
	ErrorServerError         ErrorCode = 0x0000
	ErrorProtocolError       ErrorCode = 0x000a
	ErrorAuthenticationError ErrorCode = 0x0100
	// ErrorUnavailable: consistency, required, alive.
	ErrorUnavailable     ErrorCode = 0x1000
	ErrorOverloaded      ErrorCode = 0x1001
	ErrorIsBootstrapping ErrorCode = 0x1002
	ErrorTruncateError   ErrorCode = 0x1003
	// ErrorWriteTimeout: consistency, received, block_for, write_type.
	ErrorWriteTimeout ErrorCode = 0x1100
	// ErrorReadTimeout: consistency, received, block_for, data_present.
	ErrorReadTimeout ErrorCode = 0x1200
	// ErrorReadFailure: consistency, received, block_for, failures, data_present.
	ErrorReadFailure ErrorCode = 0x1300
	// ErrorFunctionFailure: keyspace, name, arguments.
	ErrorFunctionFailure ErrorCode = 0x1400
	// ErrorWriteFailure: consistency, received, block_for, failures, write_type.
	ErrorWriteFailure ErrorCode = 0x1500
	ErrorSyntaxError  ErrorCode = 0x2000
	ErrorUnauthorized ErrorCode = 0x2100
	ErrorInvalid      ErrorCode = 0x2200
	ErrorConfigError  ErrorCode = 0x2300
	// ErrorAlreadyExists: keyspace, table.
	ErrorAlreadyExists ErrorCode = 0x2400
	// ErrorUnprepared: statement_id.
	ErrorUnprepared ErrorCode = 0x2500
)

// String is its name; a number that has none is itself.
func (n ErrorCode) String() string { return wordOf(GroupError, int64(n)) }

// Error is its name: errors.Is finds the ErrorCode of a ServerError.
func (n ErrorCode) Error() string { return n.String() }

// ResultKind is what a RESULT is. Section 4.2.5.
type ResultKind int32

const (
	ResultVoid         ResultKind = 1
	ResultRows         ResultKind = 2
	ResultSetKeyspace  ResultKind = 3
	ResultPrepared     ResultKind = 4
	ResultSchemaChange ResultKind = 5
)

// String is its name; a number that has none is itself.
func (n ResultKind) String() string { return wordOf(GroupResult, int64(n)) }

// Consistency is a level of consistency. Section 3.
type Consistency uint16

const (
	ConsistencyAny         Consistency = 0
	ConsistencyOne         Consistency = 1
	ConsistencyTwo         Consistency = 2
	ConsistencyThree       Consistency = 3
	ConsistencyQuorum      Consistency = 4
	ConsistencyAll         Consistency = 5
	ConsistencyLocalQuorum Consistency = 6
	ConsistencyEachQuorum  Consistency = 7
	ConsistencySerial      Consistency = 8
	ConsistencyLocalSerial Consistency = 9
	ConsistencyLocalOne    Consistency = 10
)

// String is its name; a number that has none is itself.
func (n Consistency) String() string { return wordOf(GroupConsistency, int64(n)) }

// BatchType is the type of a batch. Section 4.1.7.
type BatchType uint8

const (
	BatchLogged   BatchType = 0
	BatchUnlogged BatchType = 1
	BatchCounter  BatchType = 2
)

// String is its name; a number that has none is itself.
func (n BatchType) String() string { return wordOf(GroupBatch, int64(n)) }

func wordOf(group Group, number int64) string {
	if word, known := Name(group, number); known {
		return word
	}
	return strconv.FormatInt(number, 10)
}

func named(name string, number uint8) string {
	if name == "" {
		return strconv.Itoa(int(number))
	}
	return name
}
