/* cqlp: the CQL binary protocol, version 4 (native_protocol_v4.spec of Apache Cassandra), read as events.
 *
 * A decoder takes the bytes of a connection, or of a file of frames, in pieces of any size, and puts events into an array:
 * the header of a frame, each field of a message in its notation, each type option, each scalar of a cell, and the end of
 * the frame. It holds no more memory than its limits say, whatever lengths and counts come. The library is written in
 * Rattle and proved: the events in the array are those that the bytes used say, in order, and no input makes it read or write
 * outside what it was given, loop for ever or end the process. What is proved ends at this interface: what the caller
 * owes, below, nothing checks.
 *
 *     cqlp_limits limits = CQLP_DEFAULT_LIMITS;
 *     cqlp_decoder decoder = CQLP_NO_DECODER_YET;
 *     static cqlp_event events[64];
 *     cqlp_batch batch = {0};
 *     cqlp_end end = {0};
 *     if (cqlp_new(&limits, &decoder) != CQLP_DONE) return;
 *     while ((length = read(fd, input, sizeof input)) > 0) {
 *       size_t used = 0;
 *       do {
 *         cqlp_next(&decoder, input + used, length - used, events, 64, &batch);
 *         used += batch.used;
 *         for (size_t i = 0; i < batch.events; i++) take(&events[i]);
 *       } while (batch.stop == CQLP_STOP_FULL);
 *       if (batch.stop == CQLP_STOP_REFUSED) break;
 *     }
 *     cqlp_finish(&decoder, &end);
 *     cqlp_free(&decoder);
 *
 * A client's core knows which requests are open on a connection: it gives each a stream id, and says which of them a response
 * answers. It sends and receives nothing. After a frame's event came from a server:
 *
 *     cqlp_client client = CQLP_NO_CLIENT_YET;
 *     cqlp_ticket ticket = {0};
 *     cqlp_reply reply = {0};
 *     if (cqlp_client_new(1024, &client) != CQLP_DONE) return;
 *     if (cqlp_client_begin(&client, CQLP_OPCODE_STARTUP, 7, &ticket) == CQLP_DONE) {
 *       cqlp_header fields = {length, ticket.id, CQLP_OPCODE_STARTUP, 0, 0};
 *       cqlp_write_header(&fields, bytes);
 *       send(fd, bytes, 9, 0); and then the body, of `length` bytes
 *     }
 *     ...
 *     if (event->tag == CQLP_TAG_FRAME && cqlp_client_reply(&client, event, &reply) == CQLP_DONE)
 *       take_reply(reply.what, reply.carried);
 *     cqlp_client_free(&client);
 *
 * The number 7 there is the caller's: the core carries it until the reply. A server's core knows which requests it has not answered.
 * After a frame's event came from a client:
 *
 *     if (event->tag == CQLP_TAG_FRAME && (code = cqlp_server_accept(&server, event, 7)) != CQLP_DONE)
 *       close_for(code);
 *     ...
 *     if (cqlp_server_answer(&server, stream, CQLP_OPCODE_READY, &answered) == CQLP_DONE) {
 *       cqlp_header fields = {length, stream, CQLP_OPCODE_READY, 0, 1};
 *       cqlp_write_header(&fields, bytes);
 *       send(fd, bytes, 9, 0); and then the body, of `length` bytes
 *     }
 *
 * What the caller owes:
 *
 * - No pointer is null, but that of an input or a stream whose length is 0, and that of what has a room of 0, may be. Each
 *   points to as much as its type and the number after it say, aligned for its type, and no two that are given to one call
 *   overlap.
 * - A handle is CQLP_NO_DECODER_YET before cqlp_new or cqlp_new_lenient, CQLP_NO_CLIENT_YET before cqlp_client_new, CQLP_NO_SERVER_YET before
 *   cqlp_server_new, CQLP_NO_TYPES_YET before cqlp_types_of and cqlp_take_given, CQLP_NO_COLUMNS_YET before
 *   cqlp_columns_new, and CQLP_NO_PAGE_YET before cqlp_page_begin. Nothing but these calls writes or copies it from then on until it is freed, and it is not given to another call
 *   of this library while one runs on it.
 * - The array of events and the other structs that calls write are memory that may be written; what was in them does not
 *   matter, but it must have been set once (zeros will do).
 * - The program has malloc, realloc and free of one allocator, that align as C says. Calls are not made from a signal
 *   handler, nor in the child of a fork of a process with threads.
 *
 * How long a content lives: `content` of an event points into the input of the call that put it, where all bytes of the
 * content came in that input (of a decimal its scale too): it ends where the event's bytes end there. Else it points into the
 * decoder. It stays as it is until the next call on the handle, and as long as the caller leaves the input as it is. Copy what
 * is to live longer. The batch ends after an event whose content is in the decoder, so all contents of one batch can be read
 * together. A content of no bytes is no null pointer, so it may be copied as any other.
 *
 * Threads: a decoder and a core have no thread of their own and take no lock, so no call waits for another one: the program sees to it that each
 * handle is in one call at a time. A handle may go from one thread to another between two calls, if the program orders them (by a lock, a
 * thread's start or join, or a sequentially consistent atomic). Different handles share nothing, and may be used at the same time.
 * That a handle may go to another thread is proved of each but that of a page.
 *
 * The numbers below never change; new ones come at the end of their group, so take a number that you do not know as one to
 * pass over. Sections are those of native_protocol_v4.spec.
 */
#ifndef CQLP_H
#define CQLP_H

#include <stddef.h>
#include <stdint.h>

/* The version of this file and of its library. */
#define CQLP_VERSION "0.1.0"
#define CQLP_VERSION_NUMBER 1000     /* 1000000 for each of its first part, 1000 of its second, 1 of its third */

/* How the structs below lie in memory: a number that is another one where any of them lies otherwise. The calls that make a handle or are given none
 * (cqlp_new, cqlp_new_lenient, cqlp_check, cqlp_types_of, cqlp_take_given, cqlp_columns_new, cqlp_client_new, cqlp_server_new, cqlp_write_header,
 * cqlp_encode, cqlp_page_measure, cqlp_page_begin) pass it to the library. A library whose structs lie otherwise answers CQLP_OTHER_LAYOUT and touches none of
 * the caller's; so does each to a program that was compiled with a header without this number. A wrapper in another language makes these calls by
 * their names with _by_layout, as at the end of this file, with the number of the layout that it has itself. */
#define CQLP_LAYOUT 0xCF3119DD

#ifdef __cplusplus
extern "C" {
#endif

/* Codes: what a call answers. */
#define CQLP_DONE 0                  /* the call did what it says */
#define CQLP_BAD_TEXT 1              /* `text` is not from 32 to 16777216 */
#define CQLP_BAD_CELL 2              /* `cell` is not from 32 to 16777216 */
#define CQLP_BAD_ENTRIES 3           /* `entries` is not from 1 to 65536 */
#define CQLP_BAD_DEPTH 4             /* `depth` is not from 1 to 64 */
#define CQLP_NO_MEMORY 5             /* malloc gave none */
#define CQLP_NO_DECODER 6            /* the handle has no decoder */
#define CQLP_IN_USE 7                /* the handle has a decoder, or a core, already */
#define CQLP_NO_CLIENT 8             /* the handle has no client's core */
#define CQLP_BAD_SLOTS 9             /* the number of slots is not from 1 to 32768 */
#define CQLP_NO_REQUEST 10           /* the opcode is no request's */
#define CQLP_BAD_PHASE 11            /* requests of this kind may not begin in the current phase */
#define CQLP_SPENT 12                /* 2^64 - 1 requests have begun */
#define CQLP_FULL 13                 /* each slot has a request that waits for its reply */
#define CQLP_NO_FRAME 14             /* the event is none that begins a frame */
#define CQLP_NOT_RESPONSE 15         /* a request came */
#define CQLP_NO_SUCH_STREAM 16       /* no request is open under the stream id of the response */
#define CQLP_WRONG_OPCODE 17         /* the response answers no request of the kind that is open under its stream id */
#define CQLP_NOT_CANCELLED 18        /* the request does not wait, was cancelled before, or sets up the connection */
#define CQLP_COMPRESSED 19           /* the flag 01 is set */
#define CQLP_BAD_OPCODE 20           /* no opcode has this number */
#define CQLP_BAD_DIRECTION 21        /* a request's opcode in a response, or the other way round */
#define CQLP_BAD_LENGTH 22           /* the body is longer than 268435456 bytes */
#define CQLP_NO_SERVER 23            /* the handle has no server's core */
#define CQLP_NOT_REQUEST 24          /* a response came, or its opcode is no request's */
#define CQLP_BAD_ID 25               /* the stream id is negative, or none of the core's slots */
#define CQLP_ID_TAKEN 26             /* a request is open under this stream id */
#define CQLP_NO_ROOM 27              /* there are more bytes than there is room for */
#define CQLP_NO_TYPES 28             /* there is no table of types */
#define CQLP_ENDED 29                /* the stream was refused */
#define CQLP_OFF 30                  /* the limits say that cells are not read by their types */
#define CQLP_BUSY 31                 /* a table that was given types the frame under way */
#define CQLP_OPEN 32                 /* a type of the table is not whole */
#define CQLP_TOO_MANY 33             /* the table has more type options than the limit on `entries` */
#define CQLP_TOO_DEEP 34             /* types are nested deeper than the limit on `depth`; of a frame that is written, deeper than 64 */
#define CQLP_NOT_REFUSED 35          /* nothing is refused */
#define CQLP_IN_HEADER 36            /* a header is refused, so nobody knows where its frame ends */
#define CQLP_TOO_FAR 37              /* the frame ends past the greatest offset */
#define CQLP_NO_EVENT 38             /* no event is like this one */
#define CQLP_MISPLACED 39            /* an event of another place */
#define CQLP_UNBUILT 40              /* a part of a scalar */
#define CQLP_TOO_MANY_FIELDS 41      /* there are more than 268435456 fields */
#define CQLP_TOO_MANY_BYTES 42       /* the contents have more than 268435456 bytes */
#define CQLP_LEFT_OVER 43            /* there are bytes after the contents of the events */
#define CQLP_NO_SUCH_FRAME 44        /* no frame has these events */

#define CQLP_NO_PAGE 45              /* the handle has no page */
#define CQLP_NO_ROWS 46              /* the last event of a head is no count of rows */
#define CQLP_NOT_PAGE 47             /* the head is that of another frame than a page */
#define CQLP_TOO_MANY_ROWS 48        /* there are more than 2147483647 rows */
#define CQLP_BAD_SIZE 49             /* no call answers it */
#define CQLP_PAST_SIZE 50            /* the cells would have more bytes than were said */
#define CQLP_NOT_ENDED 51            /* the last cell has begun and not ended */
#define CQLP_NO_TYPE 52              /* the type of a column is the type of no cell */
#define CQLP_NO_VALUE 53             /* no value of the column's type has these events */
#define CQLP_CELLS_MISSING 54        /* there are fewer cells than rows times columns */
#define CQLP_BYTES_MISSING 55        /* the cells have fewer bytes than were said */

#define CQLP_TOO_MANY_COLUMNS 60     /* there are more columns than the limits say */
#define CQLP_BAD_KIND 61             /* no kind has this number */
#define CQLP_UNSUPPORTED 62          /* values of the kind have items */
#define CQLP_NO_COLUMNS 63           /* the handle has no columns */
#define CQLP_NO_COLUMN 64            /* there is no column of this number */
#define CQLP_OTHER_LAYOUT 65         /* the caller was compiled with a header whose structs lie otherwise than the library's */

/* Why a batch of events ends. */
#define CQLP_STOP_MORE 0             /* all of the input was used, and more is wanted */
#define CQLP_STOP_FULL 1             /* call again with the rest of the input; `events` is over 0 where `room` is */
#define CQLP_STOP_REFUSED 2          /* the stream is refused, here and at every later call before a cqlp_skip */

/* How a stream ends. */
#define CQLP_END_WHOLE 0             /* at a frame's end; bytes: how many were used */
#define CQLP_END_CUT 1               /* within the frame that begins at `at`; bytes: how many were used */
#define CQLP_END_REFUSED 2           /* at the offset `at`, for `reason` */

/* Tags: what an event is, and which members of `cqlp_event` it uses beside `at`. The others are 0. */
#define CQLP_TAG_FRAME 1             /* number: the bytes of the body; extra: the stream id; opcode, flags; mark RESPONSE or NONE */
#define CQLP_TAG_BYTE 2              /* field; number */
#define CQLP_TAG_SHORT 3             /* field; number */
#define CQLP_TAG_INT 4               /* field; number */
#define CQLP_TAG_LONG 5              /* field; number */
#define CQLP_TAG_UUID 6              /* field; bytes */
#define CQLP_TAG_COUNT 7             /* field; number: how many items follow */
#define CQLP_TAG_TEXT 8              /* field; content in UTF-8 */
#define CQLP_TAG_BYTES 9             /* field; content, or mark NULL */
#define CQLP_TAG_BOUND 10            /* field; content, or mark NULL or UNSET */
#define CQLP_TAG_INET 11             /* field; bytes: the address, 4 or 16 octets; extra: the port */
#define CQLP_TAG_TYPE_NODE 12        /* kind of a type option; its parameters follow */
#define CQLP_TAG_LEAF 13             /* a scalar: row, column, level, kind, and what the kind says below */
#define CQLP_TAG_NULL 14             /* a value of a negative length: row, column, level */
#define CQLP_TAG_EMPTY 15            /* a value of no bytes: row, column, level */
#define CQLP_TAG_ENTER 16            /* a value with items begins: row, column, level, kind; number: how many */
#define CQLP_TAG_LEAVE 17            /* such a value ends: level; number: how many items it had */
#define CQLP_TAG_PART 18             /* a part of a long scalar: row, column, level; number: its offset; content; mark LAST or NONE */
#define CQLP_TAG_END 19              /* the frame ends; number: bytes after its last field */

/* Marks: what the tag leaves open. */
#define CQLP_MARK_NONE 0
#define CQLP_MARK_RESPONSE 1         /* the frame is a response */
#define CQLP_MARK_NULL 2             /* null, not bytes */
#define CQLP_MARK_UNSET 3            /* not set, not bytes */
#define CQLP_MARK_LAST 4             /* the last part */

/* Opcodes: what a message is, section 2.4. */
#define CQLP_OPCODE_ERROR 0x00       /* a response: the request failed */
#define CQLP_OPCODE_STARTUP 0x01     /* a request: the first that opens a connection */
#define CQLP_OPCODE_READY 0x02       /* a response: the connection is open, or REGISTER was done */
#define CQLP_OPCODE_AUTHENTICATE 0x03 /* a response: the client is to authenticate */
#define CQLP_OPCODE_OPTIONS 0x05     /* a request: which options are there? */
#define CQLP_OPCODE_SUPPORTED 0x06   /* a response: the options that are there */
#define CQLP_OPCODE_QUERY 0x07       /* a request: a statement, to be run */
#define CQLP_OPCODE_RESULT 0x08      /* a response: what came of a statement */
#define CQLP_OPCODE_PREPARE 0x09     /* a request: a statement, to be prepared */
#define CQLP_OPCODE_EXECUTE 0x0A     /* a request: a prepared statement, to be run */
#define CQLP_OPCODE_REGISTER 0x0B    /* a request: events are asked for */
#define CQLP_OPCODE_EVENT 0x0C       /* a response that no request asked for: something happened */
#define CQLP_OPCODE_BATCH 0x0D       /* a request: several statements, to be run */
#define CQLP_OPCODE_AUTH_CHALLENGE 0x0E /* a response: the client is to say more */
#define CQLP_OPCODE_AUTH_RESPONSE 0x0F /* a request: what the client says to authenticate */
#define CQLP_OPCODE_AUTH_SUCCESS 0x10 /* a response: the client is known */

/* Fields of messages. */
#define CQLP_FIELD_TRACE_ID 1        /* The id of the tracing session, a [uuid], where the header has the flag 02. Section 2.2. */
#define CQLP_FIELD_WARNINGS 2        /* How many warnings come, a [short], where the header has the flag 08. Section 2.2. */
#define CQLP_FIELD_WARNING 3         /* One of them, a [string]. */
#define CQLP_FIELD_PAYLOAD_ITEMS 4   /* How many items the custom payload has, a [short], where the header has the flag 04. Section 2.2. */
#define CQLP_FIELD_PAYLOAD_KEY 5     /* The key of an item, a [string]. */
#define CQLP_FIELD_PAYLOAD_VALUE 6   /* The value of an item, [bytes]. */
#define CQLP_FIELD_OPTIONS 7         /* How many options come, a [short]: of STARTUP, section 4.1.1, or of SUPPORTED, section 4.2.4. */
#define CQLP_FIELD_OPTION_KEY 8      /* The name of an option, a [string]. */
#define CQLP_FIELD_OPTION_VALUE 9    /* The value of an option, or one of its values, a [string]. */
#define CQLP_FIELD_OPTION_VALUES 10  /* How many values an option of SUPPORTED has, a [short]. */
#define CQLP_FIELD_QUERY 11          /* The text of a query, a [long string]. Sections 4.1.4, 4.1.5 and 4.1.7. */
#define CQLP_FIELD_STATEMENT_ID 12   /* The id of a prepared statement, [short bytes]. Sections 4.1.6, 4.1.7, 4.2.5.4 and 9. */
#define CQLP_FIELD_EVENT_TYPES 13    /* How many types of events are asked for, a [short]. Section 4.1.8. */
#define CQLP_FIELD_EVENT_TYPE 14     /* A type of events, a [string]: one that is asked for, or that of an EVENT. Sections 4.1.8 and 4.2.6. */
#define CQLP_FIELD_TOKEN 15          /* What either side says to authenticate, [bytes]. Sections 4.1.2, 4.2.7 and 4.2.8. */
#define CQLP_FIELD_BATCH_TYPE 16     /* The kind of a batch, a [byte]: 0 logged, 1 unlogged, 2 of counters. Section 4.1.7. */
#define CQLP_FIELD_ENTRIES 17        /* How many statements a batch has, a [short]. */
#define CQLP_FIELD_ENTRY_KIND 18     /* Whether a statement of a batch comes as a text, 0, or by the id of a prepared one, 1: a [byte]. */
#define CQLP_FIELD_CONSISTENCY 19    /* A level of consistency, a [short]. Section 3. */
#define CQLP_FIELD_BATCH_FLAGS 20    /* What a batch has after its consistency, a [byte]: 10 a serial consistency, 20 a timestamp. */
#define CQLP_FIELD_SERIAL_CONSISTENCY 21 /* The level of consistency of the serial phase, a [short]. */
#define CQLP_FIELD_TIMESTAMP 22      /* The time that the statements have by default, in microseconds from 1970, a [long]. */
#define CQLP_FIELD_QUERY_FLAGS 23    /* What a query has after its consistency, a [byte]. Section 4.1.4. */
#define CQLP_FIELD_VALUES 24         /* How many values are bound, a [short]. */
#define CQLP_FIELD_VALUE_NAME 25     /* The name of a bound value, a [string]. */
#define CQLP_FIELD_VALUE 26          /* A bound value, a [value]. */
#define CQLP_FIELD_PAGE_SIZE 27      /* How many rows a page of the result is to have, an [int]. */
#define CQLP_FIELD_PAGING_STATE 28   /* Where the result goes on, [bytes]. Sections 4.1.4 and 4.2.5.2. */
#define CQLP_FIELD_CLASS 29          /* The name of a class, a [string]: of an authenticator, section 4.2.3, or of a custom type, section 4.2.5.2. */
#define CQLP_FIELD_ERROR_CODE 30     /* What an ERROR is of, an [int]. Section 9. */
#define CQLP_FIELD_MESSAGE 31        /* What an ERROR says, a [string]. Section 4.2.1. */
#define CQLP_FIELD_REQUIRED 32       /* How many replicas had to be alive, an [int]. Section 9. */
#define CQLP_FIELD_ALIVE 33          /* How many replicas were alive, an [int]. Section 9. */
#define CQLP_FIELD_RECEIVED 34       /* How many replicas answered, an [int]. Section 9. */
#define CQLP_FIELD_BLOCK_FOR 35      /* How many replicas had to answer, an [int]. Section 9. */
#define CQLP_FIELD_WRITE_TYPE 36     /* What kind of write it was, a [string]. Section 9. */
#define CQLP_FIELD_DATA_PRESENT 37   /* Whether the replica that was asked for data answered, a [byte], 0 where it did not. Section 9. */
#define CQLP_FIELD_FAILURES 38       /* How many replicas failed, an [int]. Section 9. */
#define CQLP_FIELD_KEYSPACE 39       /* The name of a keyspace, a [string]. */
#define CQLP_FIELD_NAME 40           /* The name of a table, a type, a function or an aggregate, a [string]. Sections 4.2.5.5 and 9. */
#define CQLP_FIELD_ARGUMENTS 41      /* How many arguments a function has, a [short]. */
#define CQLP_FIELD_ARGUMENT 42       /* The type of an argument, a [string]. */
#define CQLP_FIELD_TABLE 43          /* The name of a table, a [string]. */
#define CQLP_FIELD_RESULT_KIND 44    /* What a RESULT is, an [int]: 1 nothing, 2 rows, 3 a keyspace, 4 a prepared statement, 5 a change of the schema. Section 4.2.5. */
#define CQLP_FIELD_ROWS 45           /* How many rows come, an [int]. Section 4.2.5.2. */
#define CQLP_FIELD_META_FLAGS 46     /* What the metadata have, an [int]: 1 one table for all columns, 2 more pages, 4 no columns. Section 4.2.5.2. */
#define CQLP_FIELD_COLUMNS 47        /* How many columns there are, an [int]. */
#define CQLP_FIELD_KEYS 48           /* How many of the bound values make the partition key, an [int]. Section 4.2.5.4. */
#define CQLP_FIELD_KEY_INDEX 49      /* The place of one of them among the bound values, a [short]. */
#define CQLP_FIELD_COLUMN_NAME 50    /* The name of a column, a [string]. */
#define CQLP_FIELD_CHANGE 51         /* What was done, a [string]. Sections 4.2.5.5 and 4.2.6. */
#define CQLP_FIELD_TARGET 52         /* What a change of the schema was done to, a [string]. Section 4.2.5.5. */
#define CQLP_FIELD_ADDRESS 53        /* The node that an event is about, an [inet]. Section 4.2.6. */
#define CQLP_FIELD_TYPE_NAME 54      /* The name of a user defined type, a [string]. Section 4.2.5.2. */
#define CQLP_FIELD_FIELDS 55         /* How many fields a user defined type or a tuple has, a [short]. */
#define CQLP_FIELD_FIELD_NAME 56     /* The name of a field of a user defined type, a [string]. */

/* Kinds of types: the ids of their type options, section 4.2.5.2. */
#define CQLP_KIND_CUSTOM 0x00        /* content */
#define CQLP_KIND_ASCII 0x01         /* content */
#define CQLP_KIND_BIGINT 0x02        /* number */
#define CQLP_KIND_BLOB 0x03          /* content */
#define CQLP_KIND_BOOLEAN 0x04       /* number: 0 or 1 */
#define CQLP_KIND_COUNTER 0x05       /* number */
#define CQLP_KIND_DECIMAL 0x06       /* extra: the scale; content: the unscaled number, in two's complement */
#define CQLP_KIND_DOUBLE 0x07        /* bytes: 8 of a binary64, the highest first */
#define CQLP_KIND_FLOAT 0x08         /* bytes: 4 of a binary32, the highest first */
#define CQLP_KIND_INT 0x09           /* number */
#define CQLP_KIND_TIMESTAMP 0x0B     /* number: milliseconds from 1970 */
#define CQLP_KIND_UUID 0x0C          /* bytes: 16 */
#define CQLP_KIND_VARCHAR 0x0D       /* content in UTF-8 */
#define CQLP_KIND_VARINT 0x0E        /* content, in two's complement */
#define CQLP_KIND_TIMEUUID 0x0F      /* bytes: 16 */
#define CQLP_KIND_INET 0x10          /* bytes: 4 or 16 */
#define CQLP_KIND_DATE 0x11          /* number: days, 2^31 is the first of January 1970 */
#define CQLP_KIND_TIME 0x12          /* number: nanoseconds since midnight */
#define CQLP_KIND_SMALLINT 0x13      /* number */
#define CQLP_KIND_TINYINT 0x14       /* number */
#define CQLP_KIND_LIST 0x20          /* of items */
#define CQLP_KIND_MAP 0x21           /* of pairs */
#define CQLP_KIND_SET 0x22           /* of items */
#define CQLP_KIND_UDT 0x30           /* of fields */
#define CQLP_KIND_TUPLE 0x31         /* of fields */
#define CQLP_KIND_RAW 0xFF           /* content of a cell whose type is not known */

/* Reasons of a refusal. */
#define CQLP_REASON_BAD_VERSION 1    /* The first byte of a header is neither 04 nor 84. */
#define CQLP_REASON_COMPRESSED 2     /* A header's flags announce compression. */
#define CQLP_REASON_BAD_OPCODE 3     /* No opcode has this number. */
#define CQLP_REASON_BAD_DIRECTION 4  /* A request's opcode in a response, or the other way round. */
#define CQLP_REASON_BAD_LENGTH 5     /* A body's length that is negative or above 268,435,456. */
#define CQLP_REASON_OVERRUN 6        /* Past the end of the frame, or of the value around an element. */
#define CQLP_REASON_TOO_LONG 7       /* Past the caller's limit on a text or a cell. */
#define CQLP_REASON_BAD_UTF8 8       /* A text that is not UTF-8. */
#define CQLP_REASON_BAD_VALUE_LENGTH 9 /* The length of a [value] below -2. */
#define CQLP_REASON_BAD_INET 10      /* The address of an [inet] has neither 4 nor 16 bytes. */
#define CQLP_REASON_BAD_COUNT 11     /* A negative count, or a negative length of a text. */
#define CQLP_REASON_BAD_TYPE 12      /* No type option has this id. */
#define CQLP_REASON_TOO_DEEP 13      /* A type past the caller's limit on nesting. */
#define CQLP_REASON_TOO_MANY 14      /* More type options than the caller's limit. */
#define CQLP_REASON_BAD_BATCH_KIND 15 /* The kind of a batch's entry is neither 0 nor 1. */
#define CQLP_REASON_BAD_BATCH_FLAGS 16 /* A batch's flags name values, or have a bit that only a query's have. */
#define CQLP_REASON_BAD_SIZE 17      /* A cell's length that its type does not have. */
#define CQLP_REASON_BAD_SCALAR 18    /* A cell's content that its type does not have. */
#define CQLP_REASON_EXTRA_IN_VALUE 19 /* Bytes of a value after its last item. */
#define CQLP_REASON_STREAM_TOO_LONG 20 /* A frame that would begin past offset 2^63. */

/* Phases: how far the setting up of a connection has come. Sections 4.1.1 and 4.1.2. */
#define CQLP_PHASE_FRESH 1           /* no STARTUP yet: OPTIONS and STARTUP may begin */
#define CQLP_PHASE_OPENING 2         /* a STARTUP or AUTH_RESPONSE waits for its reply: nothing may begin */
#define CQLP_PHASE_CHALLENGED 3      /* the server asked for AUTH_RESPONSE, which alone may begin */
#define CQLP_PHASE_READY 4           /* set up: all but STARTUP and AUTH_RESPONSE may begin */
#define CQLP_PHASE_FAILED 5          /* setting up ended by an ERROR: nothing may begin */

/* What a response says to a client. */
#define CQLP_REPLY_EVENT 1           /* the server pushed an event: it is the reply to nothing */
#define CQLP_REPLY_ANSWER 2          /* it is the reply to the request of this ticket */
#define CQLP_REPLY_DROPPED 3         /* the same, and the request was cancelled */

/* Codes of errors: the number of the field ERROR_CODE. Section 9. */
#define CQLP_ERROR_SERVER_ERROR 0x0000
#define CQLP_ERROR_PROTOCOL_ERROR 0x000A
#define CQLP_ERROR_AUTHENTICATION_ERROR 0x0100
#define CQLP_ERROR_UNAVAILABLE 0x1000 /* consistency, required, alive */
#define CQLP_ERROR_OVERLOADED 0x1001
#define CQLP_ERROR_IS_BOOTSTRAPPING 0x1002
#define CQLP_ERROR_TRUNCATE_ERROR 0x1003
#define CQLP_ERROR_WRITE_TIMEOUT 0x1100 /* consistency, received, block_for, write_type */
#define CQLP_ERROR_READ_TIMEOUT 0x1200 /* consistency, received, block_for, data_present */
#define CQLP_ERROR_READ_FAILURE 0x1300 /* consistency, received, block_for, failures, data_present */
#define CQLP_ERROR_FUNCTION_FAILURE 0x1400 /* keyspace, name, arguments */
#define CQLP_ERROR_WRITE_FAILURE 0x1500 /* consistency, received, block_for, failures, write_type */
#define CQLP_ERROR_SYNTAX_ERROR 0x2000
#define CQLP_ERROR_UNAUTHORIZED 0x2100
#define CQLP_ERROR_INVALID 0x2200
#define CQLP_ERROR_CONFIG_ERROR 0x2300
#define CQLP_ERROR_ALREADY_EXISTS 0x2400 /* keyspace, table */
#define CQLP_ERROR_UNPREPARED 0x2500 /* statement_id */

/* Kinds of results: the number of the field RESULT_KIND. Section 4.2.5. */
#define CQLP_RESULT_VOID 1
#define CQLP_RESULT_ROWS 2
#define CQLP_RESULT_SET_KEYSPACE 3
#define CQLP_RESULT_PREPARED 4
#define CQLP_RESULT_SCHEMA_CHANGE 5

/* Levels of consistency: the number of the fields CONSISTENCY and SERIAL_CONSISTENCY. Section 3. */
#define CQLP_CONSISTENCY_ANY 0
#define CQLP_CONSISTENCY_ONE 1
#define CQLP_CONSISTENCY_TWO 2
#define CQLP_CONSISTENCY_THREE 3
#define CQLP_CONSISTENCY_QUORUM 4
#define CQLP_CONSISTENCY_ALL 5
#define CQLP_CONSISTENCY_LOCAL_QUORUM 6
#define CQLP_CONSISTENCY_EACH_QUORUM 7
#define CQLP_CONSISTENCY_SERIAL 8
#define CQLP_CONSISTENCY_LOCAL_SERIAL 9
#define CQLP_CONSISTENCY_LOCAL_ONE 10

/* Types of batches: the number of the field BATCH_TYPE. Section 4.1.7. */
#define CQLP_BATCH_LOGGED 0
#define CQLP_BATCH_UNLOGGED 1
#define CQLP_BATCH_COUNTER 2

/* Groups of numbers, for cqlp_name: each is of CQLP_.. with the word of the group. */
#define CQLP_GROUP_CODE 1            /* what a call answers: CQLP_DONE and what follows; as BadText */
#define CQLP_GROUP_STOP 2            /* as Full */
#define CQLP_GROUP_END 3             /* as cqlp check writes it: whole, cut, refused */
#define CQLP_GROUP_TAG 4             /* as cqlp show writes it, as Frame */
#define CQLP_GROUP_MARK 5            /* as unset */
#define CQLP_GROUP_OPCODE 6          /* as QUERY */
#define CQLP_GROUP_FIELD 7           /* as PageSize */
#define CQLP_GROUP_KIND 8            /* as varchar */
#define CQLP_GROUP_REASON 9          /* as BadOpcode */
#define CQLP_GROUP_PHASE 10          /* as Ready */
#define CQLP_GROUP_REPLY 11          /* as Dropped */
#define CQLP_GROUP_LIMIT 12          /* the member of cqlp_limits that a code of cqlp_new and cqlp_check is about, as text */
#define CQLP_GROUP_ERROR 13          /* as Unavailable */
#define CQLP_GROUP_RESULT 14         /* as SetKeyspace */
#define CQLP_GROUP_CONSISTENCY 15    /* as LOCAL_QUORUM */
#define CQLP_GROUP_BATCH 16          /* as unlogged */

/* What a decoder holds at most, and what it reads. */
typedef struct cqlp_limits {
  uint32_t text;    /* the bytes of one [string] or [long string]: 32 to 16777216 */
  uint32_t cell;    /* the bytes of one [bytes], [short bytes], [value] or scalar cell: 32 to 16777216 */
  uint32_t entries; /* the type options of one metadata, nested ones counted: 1 to 65536 */
  uint32_t depth;   /* the nesting of one type, a column's own option having depth 1: 1 to 64 */
  uint8_t types;    /* 0: cells are not read by the types of their columns, and each is a raw scalar */
  uint8_t parts;    /* not 0: a blob, custom or raw scalar longer than `cell` comes in parts of that size */
} cqlp_limits;

#define CQLP_DEFAULT_LIMITS {1048576, 1048576, 4096, 16, 1, 0}

/* A decoder, or none; 64 bytes where a pointer has 8. The members are the library's own. */
typedef struct cqlp_decoder {
  uint64_t live;
  void *place;
  uint64_t course[6];
} cqlp_decoder;

#define CQLP_NO_DECODER_YET {0, NULL, {0, 0, 0, 0, 0, 0}}

/* An event; 72 bytes where a pointer has 8. What its tag has no use for is 0. Rows and columns count from 0; a level is the
 * number of values around a value, 0 for the cell itself. */
typedef struct cqlp_event {
  uint64_t at;            /* the offset in the stream of the event's field; an end's is the frame's end */
  const uint8_t *content; /* the content, lent as said above; null where the event has none */
  size_t length;          /* how many bytes the content has; it ends with no zero */
  int64_t number;         /* a value, a count, how many items, an offset, or how many bytes */
  uint32_t row;
  uint32_t column;
  uint32_t level;
  int32_t extra;     /* a stream id, a port, or a scale */
  uint8_t bytes[16]; /* a uuid, an address or a binary number, in the order of the stream, and zeros after it */
  uint8_t tag;       /* CQLP_TAG_.. */
  uint8_t field;     /* CQLP_FIELD_.. */
  uint8_t kind;      /* CQLP_KIND_.. */
  uint8_t opcode;    /* of a frame: CQLP_OPCODE_.. */
  uint8_t flags;     /* of a frame: section 2.2 */
  uint8_t mark;      /* CQLP_MARK_.. */
  uint8_t octets;    /* how many of `bytes` are the event's: 4, 8 or 16 */
} cqlp_event;

/* What one call of cqlp_next made of the input. */
typedef struct cqlp_batch {
  size_t used;    /* how many bytes of the input were used */
  size_t events;  /* how many events are in the array */
  uint64_t at;    /* where the stream is refused: the offset of the first byte of the field that could not be made */
  uint8_t stop;   /* CQLP_STOP_.. */
  uint8_t reason; /* where the stream is refused: CQLP_REASON_.. */
} cqlp_batch;

/* A frame that was passed over, since something in its body is refused. */
typedef struct cqlp_skipped {
  cqlp_event frame; /* the event of its header, as cqlp_next put it: its offset, stream id, opcode, and the bytes of its body */
  uint64_t at;      /* the offset of the first byte of the field that could not be made */
  uint64_t rest;    /* how many of its bytes are still to come, from `used` of the last batch on: cqlp_next uses them unread */
  uint8_t reason;   /* CQLP_REASON_.. */
} cqlp_skipped;

/* How a stream ends. */
typedef struct cqlp_end {
  uint64_t at;     /* where it is cut: the offset of the frame; where it is refused: that of the field */
  uint64_t bytes;  /* how many bytes were used; 0 where it is refused */
  uint8_t verdict; /* CQLP_END_.. */
  uint8_t reason;  /* where it is refused: CQLP_REASON_.. */
} cqlp_end;

/* What a decoder holds of the stream. */
typedef struct cqlp_holding {
  uint32_t bytes;   /* of a content that came in pieces: no more than the greater of `text` and `cell` */
  uint32_t entries; /* the type options of the metadata begun last: no more than `entries` */
  uint32_t levels;  /* the types or values around the one that is read: no more than `depth` */
} cqlp_holding;

/* A table of types, or none: one for each column of a page. The members are the library's own. */
typedef struct cqlp_types {
  uint64_t live;
  void *place;
} cqlp_types;

#define CQLP_NO_TYPES_YET {0, NULL}

/* Columns for a page's rows, or none. The members are the library's own. */
typedef struct cqlp_columns {
  uint64_t live;
  void *place;
} cqlp_columns;

#define CQLP_NO_COLUMNS_YET {0, NULL}

/* How large a batch of rows may be; 16 bytes. */
typedef struct cqlp_batch_limits {
  uint32_t columns; /* how many columns */
  uint32_t rows;    /* how many rows */
  uint32_t bytes;   /* with how many bytes of values in a column no further row begins; those of its last row come on top of it */
  uint32_t content; /* how many bytes one value may have */
} cqlp_batch_limits;

/* The arrays of a column, in the layout of Apache Arrow; 64 bytes. A bit of an array of bits is the least of its byte first. Each array that has
 * something begins where malloc gave memory, so it is aligned as C says, to 16 bytes where a pointer has 8: Arrow asks for 8. For the 64 that it
 * prefers, and for the bytes up to the next 8 or 64, which are not there, copy it. */
typedef struct cqlp_column {
  const uint8_t *values;   /* the values, one after the other, zeros where a cell has none: numbers with their lowest byte first; of booleans a bit each */
  const uint64_t *offsets; /* where each value begins among these bytes, and where the last one ends */
  const uint8_t *validity; /* a bit for each cell: whether it has a value */
  const uint8_t *empties;  /* a bit for each cell: whether it has a value of no bytes, which among values of a fixed length has no other place */
  size_t size;             /* how many bytes of values there are */
  size_t bounds;           /* how many offsets there are: one more than cells, or 0 where all values have the same length */
  size_t cells;            /* how many cells there are; where a row is under way the first columns have one more than the last */
  uint8_t kind;            /* of which kind they are: a number CQLP_KIND_.. */
} cqlp_column;

/* A client's core, or none: which requests are open on one connection. The members are the library's own. */
typedef struct cqlp_client {
  uint64_t live;
  void *place;
} cqlp_client;

#define CQLP_NO_CLIENT_YET {0, NULL}

/* A request that has begun; 16 bytes. */
typedef struct cqlp_ticket {
  uint64_t number; /* its place among all requests that the core began, from 1 on: no two have the same */
  int16_t id;      /* the stream id, which its header has and its reply's will have: 0 to 32767 */
} cqlp_ticket;

/* What a response says to a client; 24 bytes. */
typedef struct cqlp_reply {
  uint64_t number;  /* with `id` the request's ticket; 0 of an event */
  uint64_t carried; /* the caller's number that the request began with; 0 of an event */
  int16_t id;
  uint8_t what;    /* CQLP_REPLY_.. */
  uint8_t request; /* of an answer what was asked for: CQLP_OPCODE_..; else 0 */
} cqlp_reply;

/* A server's core, or none: which requests of one connection are not answered yet. The members are the library's own. */
typedef struct cqlp_server {
  uint64_t live;
  void *place;
} cqlp_server;

#define CQLP_NO_SERVER_YET {0, NULL}

/* A request that a server has answered; 16 bytes. */
typedef struct cqlp_answered {
  uint64_t carried; /* the caller's number that the request was accepted with */
  uint8_t request;  /* what was asked for: CQLP_OPCODE_.. */
} cqlp_answered;

/* The fields of a header, section 2; 12 bytes. The version is 4. */
typedef struct cqlp_header {
  uint32_t length;  /* the bytes of the body: 0 to 268435456 */
  int16_t stream;   /* the stream id: a request's is its ticket's */
  uint8_t opcode;   /* CQLP_OPCODE_.. */
  uint8_t flags;    /* 02 tracing, 04 custom payload, 08 warnings: section 2.2; not 01, compression */
  uint8_t response; /* 0: a request; else a response */
} cqlp_header;

/* What cqlp_encode made of events. */
typedef struct cqlp_encoded {
  size_t length; /* how many bytes the frame has, 9 to 268435465; 0 where there is no frame */
  size_t event;  /* which event is refused, from 0; how many there are where it is none of them, or where all are taken */
} cqlp_encoded;

/* How many bytes the cells of a page have. The caller makes one of zeros. */
typedef struct cqlp_measured {
  uint64_t size; /* those of the events so far */
  size_t event;  /* which event of the last call is none, from 0; how many there are where all are */
} cqlp_measured;

/* A page that is begun, or none. The members are the library's own. */
typedef struct cqlp_page {
  uint64_t live;
  void *place;
} cqlp_page;

#define CQLP_NO_PAGE_YET {0, NULL}

/* What cqlp_page_put made of events. */
typedef struct cqlp_put {
  size_t events; /* how many events the cells have that were put: give those after them with the next call */
  size_t used;   /* how many bytes of the contents are those of these events */
  size_t length; /* how many bytes were put */
  size_t event;  /* at which event it stopped, from 0; how many there are where it went over all */
  size_t wanted; /* of CQLP_NO_ROOM how many bytes the next cell has; else 0 */
} cqlp_put;

/* Makes a decoder in a handle that has none, at the start of a stream. All of its memory is asked for here, so no later call
 * runs out of memory.
 * Answers CQLP_DONE; else the handle is as it was: CQLP_BAD_TEXT, CQLP_BAD_CELL, CQLP_BAD_ENTRIES or CQLP_BAD_DEPTH for the
 * first limit in this order that is out of its range, CQLP_NO_MEMORY, or CQLP_IN_USE where the handle has a decoder. */
static inline uint32_t cqlp_new(const cqlp_limits *limits, cqlp_decoder *decoder);

/* The same, for a lenient reading, which takes what nodes and drivers send against the standard, as a time of 24 hours: a content that its
 * type does not have, by its length or by its bytes, is put as a CQLP_TAG_LEAF of the kind CQLP_KIND_RAW with all its bytes; bytes after the
 * last field of a tuple or a udt come as CQLP_TAG_PARTs of the level of the fields; a type option of an id that no kind has is put as a
 * CQLP_TAG_TYPE_NODE of the kind CQLP_KIND_RAW. The reading goes on. All else is read as by a decoder that cqlp_new makes.
 * Answers what cqlp_new does. */
static inline uint32_t cqlp_new_lenient(const cqlp_limits *limits, cqlp_decoder *decoder);

/* Takes the next bytes of the stream, and puts the events that they end into the array, at most `room`; the members after
 * them stay as they were. **A loop `while (used < length)` hangs: the end of a frame may take one more call, with no bytes. Call it again
 * while `stop` is CQLP_STOP_FULL**, as the loop at the head of this file does. `batch` says how many bytes were used and why it stopped:
 * - CQLP_STOP_MORE: all of the input was used. Give the bytes that come after it.
 * - CQLP_STOP_FULL: the array is full, or the last content lies in the decoder. Give the rest of the input again, from
 *   `used` on, also where nothing is left of it. With a `room` over 0 there is at least one event. A call with a `room` of 0 uses no byte and answers this, before a refusal.
 * - CQLP_STOP_REFUSED: the bytes after those used are no frame of the protocol, or past a limit. The events before them are
 *   in the array. Every later call answers the same, and no event, also one with a `room` of 0, until the frame is passed over.
 * After a cqlp_skip the first bytes are used unread, those that the frame still has, and `used` counts them too, also with a `room` of 0.
 * All offsets are those in the whole stream.
 * How the stream is cut into pieces, and how much room there is, changes no event and no refusal. Room for some 256 events, 18 KiB,
 * costs the least; an event a call costs three to seven times as much.
 * Answers CQLP_DONE, or CQLP_NO_DECODER, with the array and the batch as they were. */
uint32_t cqlp_next(cqlp_decoder *decoder, const uint8_t *input, size_t length, cqlp_event *events, size_t room,
                   cqlp_batch *batch);

/* Passes over the rest of the frame within which the stream is refused, and says which it was, and why. The decoder goes on with the memory
 * that it has: give the rest of the input, from `used` on, to cqlp_next, which uses what is left of the frame unread, in however many
 * pieces it comes, and then reads the header after it. What it puts from there on is what it would put of a stream that begins with
 * that header, at the offsets in this one. A frame can be passed over if its event was put: at each refusal in a body, for whatever reason.
 * A table of types that the decoder has is freed: take it back before, by cqlp_take_given, and give it again. cqlp_types_of has none until
 * the next metadata. It asks for no memory.
 * Answers CQLP_DONE; else nothing changes, and the first of these that is so: CQLP_NO_DECODER, CQLP_NOT_REFUSED, CQLP_IN_HEADER where
 * what is refused is a header, CQLP_TOO_FAR. */
uint32_t cqlp_skip(cqlp_decoder *decoder, cqlp_skipped *skipped);

/* How the stream ends, if it ends after the bytes that were used: cut, while bytes of a frame that was passed over are missing. It changes
 * nothing, and more bytes may come after it.
 * Answers CQLP_DONE, or CQLP_NO_DECODER, with `end` as it was. */
uint32_t cqlp_finish(cqlp_decoder *decoder, cqlp_end *end);

/* How much the decoder holds of the stream. It changes nothing.
 * Answers CQLP_DONE, or CQLP_NO_DECODER, with `holding` as it was. */
uint32_t cqlp_held(cqlp_decoder *decoder, cqlp_holding *holding);

/* Frees the decoder, and leaves a handle that has none, in which another may be made.
 * Answers CQLP_DONE, or CQLP_NO_DECODER where there was none, which does nothing. */
uint32_t cqlp_free(cqlp_decoder *decoder);

/* How a stream ends that is there whole: what a decoder with these limits says of it. It keeps nothing.
 * Answers CQLP_DONE; else `end` is as it was: a bad limit as in cqlp_new, or CQLP_NO_MEMORY. */
static inline uint32_t cqlp_check(const cqlp_limits *limits, const uint8_t *stream, size_t length, cqlp_end *end);

/* Puts a copy of the types of the metadata that was read last into a handle that has no table: after the End of a RESULT of the kind
 * PREPARED those of the result's columns, after that of a page those of its columns. It changes nothing in the decoder. The copy has
 * room for as many type options as the decoder's limit `entries`, however few they are.
 * Answers CQLP_DONE; else the handle is as it was: CQLP_NO_DECODER, CQLP_IN_USE where the handle has a table, or CQLP_NO_MEMORY. */
static inline uint32_t cqlp_types_of(cqlp_decoder *decoder, cqlp_types *types);

/* Gives the handle's table to a decoder, for a page without metadata, as EXECUTE asks for it: the cells of the first page that has the flag
 * No_metadata, section 4.2.5.2, and as many columns as the table, are read by its types, and no other page after it, unless the table is
 * given again. Without one such cells are raw scalars. The handle gets the table that the decoder had before, if it had one; else it has
 * none from then on. It asks for no memory.
 * Answers CQLP_DONE; else nothing changes, and the first of these that is so: CQLP_NO_DECODER, CQLP_NO_TYPES where the handle has no
 * table, CQLP_ENDED, CQLP_OFF, CQLP_BUSY, CQLP_OPEN, CQLP_TOO_MANY, CQLP_TOO_DEEP. */
uint32_t cqlp_give(cqlp_decoder *decoder, cqlp_types *types);

/* Takes the table back that a decoder was given, used or not, into a handle that has none. Only for a handle that no call used before it asks
 * for memory.
 * Answers CQLP_DONE; else nothing changes: CQLP_NO_DECODER, CQLP_IN_USE where the handle has a table, CQLP_NO_TYPES where the decoder has
 * none or its table types the frame under way, or CQLP_NO_MEMORY. */
static inline uint32_t cqlp_take_given(cqlp_decoder *decoder, cqlp_types *types);

/* Frees the table, and what memory the handle has where it gave its table away, and leaves a handle that has none.
 * Answers CQLP_DONE, or CQLP_NO_TYPES where there was nothing, which does nothing. */
uint32_t cqlp_types_free(cqlp_types *types);

/* Makes columns without rows in a handle that has none, one for each of `count` kinds, which are numbers CQLP_KIND_... All of its memory is asked
 * for here: for each column `bytes` and `content`, 8 bytes for each row and one more, and three bits for each row.
 * Answers CQLP_DONE; else the handle is as it was, and the first of these that is so: CQLP_IN_USE, CQLP_TOO_MANY_COLUMNS, CQLP_BAD_KIND,
 * CQLP_UNSUPPORTED, CQLP_NO_MEMORY. (Without memory for the kinds it is CQLP_NO_MEMORY before CQLP_BAD_KIND.) */
static inline uint32_t cqlp_columns_new(const cqlp_batch_limits *limits, const uint8_t *kinds, size_t count, cqlp_columns *columns);

/* Reads on, as cqlp_next does, with cells of a page put into the columns: those that come in their order, of their column's kind, whole and not
 * longer than `content`. It stops, and says so in the batch,
 * - at the first event that is none of these, which it puts into `event`, as cqlp_next would: `events` is 1 then, and `stop` CQLP_STOP_FULL;
 * - where the columns are full, so that no further row begins: `events` is 0, and `stop` CQLP_STOP_FULL. Take the arrays by cqlp_columns_get and
 *   call cqlp_columns_clear. Columns that are full already use no byte;
 * - where more is wanted, CQLP_STOP_MORE, or where the stream is refused, CQLP_STOP_REFUSED: `events` is 0.
 * `event` stays as it was where `events` is 0. It asks for no memory. Calls of cqlp_next and of this one may take turns.
 * Answers CQLP_DONE; else nothing changes: CQLP_NO_DECODER, or CQLP_NO_COLUMNS. */
uint32_t cqlp_columns_next(cqlp_decoder *decoder, cqlp_columns *columns, const uint8_t *input, size_t length, cqlp_event *event, cqlp_batch *batch);

/* Puts into `view` where the arrays of a column lie; the first column is number 0. They lie there for as long as the handle has columns, and stay as
 * they are until the next call on the handle other than this one.
 * Answers CQLP_DONE; else `view` is as it was: CQLP_NO_COLUMNS, or CQLP_NO_COLUMN. */
uint32_t cqlp_columns_get(cqlp_columns *columns, size_t column, cqlp_column *view);

/* Removes all rows, also one that is under way, and keeps the memory.
 * Answers CQLP_DONE, or CQLP_NO_COLUMNS. */
uint32_t cqlp_columns_clear(cqlp_columns *columns);

/* Frees the columns, and leaves a handle that has none, in which others may be made.
 * Answers CQLP_DONE, or CQLP_NO_COLUMNS where there were none, which does nothing. */
uint32_t cqlp_columns_free(cqlp_columns *columns);

/* Makes a client's core in a handle that has none, of a connection on which nothing was sent yet. `slots` is how many requests
 * may be open at a time; their stream ids are those below it. All of its memory is asked for here.
 * Answers CQLP_DONE; else the handle is as it was: CQLP_BAD_SLOTS, CQLP_NO_MEMORY, or CQLP_IN_USE where the handle has a
 * core. */
static inline uint32_t cqlp_client_new(uint32_t slots, cqlp_client *client);

/* Begins a request of the kind that has this opcode, and puts its ticket: the least stream id that is free, and the next
 * number. Send its message, whose header has this id, in the order in which requests begin. `carried` is any number of the
 * caller's, which is returned with the reply to this request.
 * Answers CQLP_DONE; else nothing changes, and the first of these that is so: CQLP_NO_CLIENT, CQLP_NO_REQUEST,
 * CQLP_BAD_PHASE, CQLP_SPENT, CQLP_FULL. */
uint32_t cqlp_client_begin(cqlp_client *client, uint8_t opcode, uint64_t carried, cqlp_ticket *ticket);

/* Takes the event of a frame that came, one with CQLP_TAG_FRAME as cqlp_next put it, and says which request it answers. Its
 * stream id is free again from then on, and the phase goes on where the request set up the connection. An EVENT with a
 * negative stream id is CQLP_REPLY_EVENT, and changes nothing.
 * Answers CQLP_DONE; else nothing changes, and the first of these that is so: CQLP_NO_CLIENT, CQLP_NO_FRAME,
 * CQLP_NOT_RESPONSE, CQLP_NO_SUCH_STREAM, CQLP_WRONG_OPCODE. */
uint32_t cqlp_client_reply(cqlp_client *client, const cqlp_event *frame, cqlp_reply *reply);

/* Gives up a request that waits for its reply. Its stream id stays taken until the reply comes, which is then
 * CQLP_REPLY_DROPPED. A STARTUP and an AUTH_RESPONSE cannot be given up.
 * Answers CQLP_DONE; else nothing changes: CQLP_NO_CLIENT, or CQLP_NOT_CANCELLED, also where the ticket is none of this core's
 * or its reply came. */
uint32_t cqlp_client_cancel(cqlp_client *client, const cqlp_ticket *ticket);

/* Puts the phase, CQLP_PHASE_... It changes nothing.
 * Answers CQLP_DONE, or CQLP_NO_CLIENT, with `phase` as it was. */
uint32_t cqlp_client_phase(cqlp_client *client, uint8_t *phase);

/* Frees the core, and leaves a handle that has none, in which another may be made. Requests that are open are forgotten.
 * Answers CQLP_DONE, or CQLP_NO_CLIENT where there was none, which does nothing. */
uint32_t cqlp_client_free(cqlp_client *client);

/* Makes a server's core in a handle that has none, of a connection on which nothing came yet. `slots` is how many requests may
 * be open at a time; their stream ids are those below it. All of its memory is asked for here.
 * Answers CQLP_DONE; else the handle is as it was: CQLP_BAD_SLOTS, CQLP_NO_MEMORY, or CQLP_IN_USE where the handle has a
 * core. */
static inline uint32_t cqlp_server_new(uint32_t slots, cqlp_server *server);

/* Takes the event of a frame that came, one with CQLP_TAG_FRAME as cqlp_next put it, as a request. Its stream id is taken until it
 * is answered. `carried` is any number of the caller's, which is returned with the answer to this request.
 * Answers CQLP_DONE; else nothing changes, and the first of these that is so: CQLP_NO_SERVER, CQLP_NO_FRAME,
 * CQLP_NOT_REQUEST, CQLP_BAD_ID, CQLP_ID_TAKEN, CQLP_BAD_PHASE. */
uint32_t cqlp_server_accept(cqlp_server *server, const cqlp_event *frame, uint64_t carried);

/* Answers the request that is open under this stream id by a response with this opcode, and puts what it is. The stream id is free
 * again from then on, and the phase goes on where the request set up the connection. Send the response, whose header has this id, in
 * the order in which requests are answered.
 * Answers CQLP_DONE; else nothing changes, and the first of these that is so: CQLP_NO_SERVER, CQLP_BAD_OPCODE,
 * CQLP_NO_SUCH_STREAM, CQLP_WRONG_OPCODE. */
uint32_t cqlp_server_answer(cqlp_server *server, int16_t stream, uint8_t opcode, cqlp_answered *answered);

/* Writes the nine bytes of the header of an EVENT, which a server sends unasked: its stream id is -1, and a client's core takes it
 * for CQLP_REPLY_EVENT. It needs no core, and changes none.
 * Answers CQLP_DONE; else the bytes are as they were: CQLP_COMPRESSED or CQLP_BAD_LENGTH. */
uint32_t cqlp_server_event(uint32_t length, uint8_t flags, uint8_t bytes[9]);

/* Puts the phase, CQLP_PHASE_... It changes nothing.
 * Answers CQLP_DONE, or CQLP_NO_SERVER, with `phase` as it was. */
uint32_t cqlp_server_phase(cqlp_server *server, uint8_t *phase);

/* Frees the core, and leaves a handle that has none, in which another may be made. Requests that are open are forgotten.
 * Answers CQLP_DONE, or CQLP_NO_SERVER where there was none, which does nothing. */
uint32_t cqlp_server_free(cqlp_server *server);

/* Puts what a server answers to a request of another version, before it closes: an ERROR of version 4 with the code 000A, whose text
 * names the versions and by which drivers try another one. The request is one that a decoder refused for CQLP_REASON_BAD_VERSION;
 * `header` is the first nine bytes of its frame, zeros where they did not come, and the answer has its stream id. `length` is how many bytes
 * the answer has, no more than 117, also where there is less room. It asks for no memory.
 * Answers CQLP_DONE, and the bytes after the answer are as they were; else CQLP_NO_ROOM, and all bytes are as they were. */
uint32_t cqlp_version_error(const uint8_t header[9], uint8_t *bytes, size_t room, size_t *length);

/* Writes the nine bytes of a header, of which the decoder reads these fields again.
 * Answers CQLP_DONE; else the bytes are as they were, and the first of these that is so: CQLP_COMPRESSED, CQLP_BAD_OPCODE,
 * CQLP_BAD_DIRECTION, CQLP_BAD_LENGTH. */
static inline uint32_t cqlp_write_header(const cqlp_header *fields, uint8_t bytes[9]);

/* Writes the frame that has these events: those that cqlp_next puts of it, in their order, a CQLP_TAG_FRAME, then its fields, and
 * CQLP_TAG_END, which may be left out. `contents` has the contents of the events, one after the other: of each text, of each CQLP_TAG_BYTES and
 * CQLP_TAG_BOUND with CQLP_MARK_NONE, and of each CQLP_TAG_LEAF of the kinds custom, ascii, blob, decimal, varchar, varint and raw, as many bytes
 * as its `length` says. No pointer in an event is followed. The members that a tag does not use are not looked at, nor are offsets, the length of
 * the body in CQLP_TAG_FRAME, which is counted, and the number of an end: bytes after the last field are left out. Of an address `octets` says
 * whether it has 4 or 16 bytes. The cells of a page have the types of its columns, and are raw where the page describes none.
 * Where there is no event, no content or no room, its pointer may be null. It asks for memory for a copy of the contents, for each event, for the
 * values of a page, and for the bytes of the frame, and gives all of it back. Of a page that it writes, whose cells are each one event, a leaf, a null or
 * an empty value of a column without inner types, it asks for memory for what comes before the cells, and a byte for each column, alone.
 * Answers CQLP_DONE, and the bytes after the frame are as they were; what was written is read as these events by a decoder whose limits allow it.
 * Else all bytes are as they were:
 * - CQLP_NO_ROOM: `length` says how many bytes the frame has. So a call with a `room` of 0 measures it.
 * - Of the event that `event` names, and the first that is so: CQLP_UNBUILT where it is a CQLP_TAG_PART, which says neither how long the content is
 *   nor all of it; CQLP_NO_EVENT where nobody knows its tag, its field, its kind, its opcode or its mark, or its number or stream id is out of its
 *   range, or its address has neither 4 nor 16 bytes, or its text is not UTF-8, or `contents` has no more bytes as many as its length says;
 *   CQLP_MISPLACED where it is a CQLP_TAG_FRAME and not the first event, or the other way round, or comes after the end; CQLP_TOO_MANY_FIELDS;
 *   CQLP_TOO_DEEP where a type option is nested deeper than 64; CQLP_TOO_MANY_BYTES.
 * - Of all events together: CQLP_LEFT_OVER; CQLP_MISPLACED where there is no event.
 * - CQLP_NO_SUCH_FRAME, and `event` is the first that does not fit: those before it are the first ones of some frame, with a body of any length, and with
 *   it they are those of none. It is of another field or cell than is due, or does not agree with what comes before it, as a cell with its column's type
 *   or an event behind as many as were counted, or its text has more bytes than its length can say. Where all fit it is how many there are: others
 *   are due after them, or the body would have more than 268435456 bytes. To find it memory is asked for once more. That it is the first is tested,
 *   and not proved.
 * - CQLP_NO_MEMORY, and `event` says at which event. */
static inline uint32_t cqlp_encode(const cqlp_event *events, size_t count, const uint8_t *contents, size_t length, uint8_t *bytes,
                                   size_t room, cqlp_encoded *encoded);

/* A page of any size is written in pieces: cqlp_page_begin puts its head, and cqlp_page_put its cells, as many at a time as the caller likes. The events
 * are those that cqlp_next puts of the page, in their order, with their contents as in cqlp_encode: the head has the CQLP_TAG_FRAME and all else up to
 * the CQLP_TAG_COUNT of CQLP_FIELD_ROWS, the cells all after it but CQLP_TAG_END. The header counts the body, so the bytes of the cells are added up
 * before it is written: the caller goes over the events of the cells twice. What is held between two calls is the head alone. What all calls have put,
 * one after the other, once cqlp_page_end answers CQLP_DONE, is the frame that has these events, and what cqlp_encode writes of them.
 *
 * Adds to `size` how many bytes of a page these events take up: only events of cells take up any. It asks for no memory. `size` is 2^64 - 1 where
 * it would be more.
 * Answers CQLP_DONE; else `size` is as it was: CQLP_UNBUILT or CQLP_NO_EVENT, as in cqlp_encode, of the event that `event` names. */
static inline uint32_t cqlp_page_measure(const cqlp_event *events, size_t count, const uint8_t *contents, size_t length, cqlp_measured *measured);

/* Begins a page in a handle that has none, and puts all of its bytes before the first cell. `size` is how many bytes its cells will have. Where there is
 * no event, no content or no room, its pointer may be null. It asks for memory for a copy of the contents and for each event, keeps what the head
 * holds, and gives the rest back.
 * Answers CQLP_DONE: `length` is how many bytes were put, and those after them are as they were. Else the handle and all bytes are as they were:
 * - CQLP_IN_USE where the handle has a page; `begun` is as it was.
 * - CQLP_NO_ROOM: `length` says how many bytes the head has.
 * - Of the event that `event` names, and the first that is so: those of cqlp_encode; CQLP_NO_ROWS where the last one is no count of rows.
 * - Of all events together: CQLP_LEFT_OVER; CQLP_MISPLACED where no header or an end comes before the count; CQLP_NO_SUCH_FRAME where no page, also without
 *   rows, has this head, of which cqlp_encode of the same events names the first that does not fit; CQLP_NOT_PAGE; CQLP_TOO_MANY_ROWS; CQLP_BAD_LENGTH where
 *   the body would have more than 268435456 bytes.
 * - CQLP_NO_MEMORY. */
static inline uint32_t cqlp_page_begin(const cqlp_event *events, size_t count, const uint8_t *contents, size_t length, uint64_t size,
                                       uint8_t *bytes, size_t room, cqlp_page *page, cqlp_encoded *begun);

/* Puts the next cells of a page, each whole, and says how many events they have and how many bytes. It goes on over all events, or stops at the first
 * that is refused, or whose cell has no room. The cells before are put, and the page goes on behind them; of the cell that is refused nothing is put, and
 * the bytes after those that were put are as they were. Events of a cell that is not put are given again, from its first on. A cell whose one event is a
 * value of its column's type, which has no inner types, is put without memory; for any other it asks for memory, and gives it back.
 * Answers CQLP_DONE where the last event ends a cell, or there is none. Else
 * - CQLP_NOT_ENDED where it does not: give the events after the first `events` again, together with those after them;
 * - CQLP_NO_ROOM: the next cell has `wanted` bytes, and as many are not left;
 * - CQLP_UNBUILT or CQLP_NO_EVENT, as in cqlp_encode; CQLP_MISPLACED where the event is not of the row and the column of the next cell, or all cells have
 *   come; CQLP_TOO_MANY_FIELDS or CQLP_TOO_MANY_BYTES where a cell has more than 268435456; at the end of a cell CQLP_NO_TYPE, CQLP_NO_VALUE where
 *   no value of the column's type has the cell's events, CQLP_PAST_SIZE where the cells would have more bytes than were said;
 * - CQLP_NO_MEMORY;
 * - CQLP_NO_PAGE where the handle has none, and `put` is as it was. */
uint32_t cqlp_page_put(cqlp_page *page, const cqlp_event *events, size_t count, const uint8_t *contents, size_t length, uint8_t *bytes, size_t room,
                       cqlp_put *put);

/* Says whether the page is whole. It changes nothing.
 * Answers CQLP_DONE; else CQLP_CELLS_MISSING, CQLP_BYTES_MISSING where all cells have come, or CQLP_NO_PAGE. */
uint32_t cqlp_page_end(cqlp_page *page);

/* Frees the page, whole or not, and leaves a handle that has none, in which another may be begun.
 * Answers CQLP_DONE, or CQLP_NO_PAGE where there was none, which does nothing. */
uint32_t cqlp_page_free(cqlp_page *page);

/* The word of a number of a group, CQLP_GROUP_.., or NULL where the group, or the number in it, is not known. It stays as it is
 * until the program ends, and is not to be freed. The words are those that `cqlp show` and `cqlp check` write, where they write
 * the number as a word. This call and the two below are a table in C, which is compared with the proved sources and not proved. */
const char *cqlp_name(uint32_t group, int64_t number);

/* The version of the library that is linked or loaded, as CQLP_VERSION and CQLP_VERSION_NUMBER are that of this file. */
const char *cqlp_version(void);
uint32_t cqlp_version_number(void);

/* How the calls above pass the layout to the library. */
uint32_t cqlp_new_by_layout(uint32_t layout, const cqlp_limits *limits, cqlp_decoder *decoder);
static inline uint32_t cqlp_new(const cqlp_limits *limits, cqlp_decoder *decoder) {
  return cqlp_new_by_layout(CQLP_LAYOUT, limits, decoder);
}

uint32_t cqlp_new_lenient_by_layout(uint32_t layout, const cqlp_limits *limits, cqlp_decoder *decoder);
static inline uint32_t cqlp_new_lenient(const cqlp_limits *limits, cqlp_decoder *decoder) {
  return cqlp_new_lenient_by_layout(CQLP_LAYOUT, limits, decoder);
}

uint32_t cqlp_check_by_layout(uint32_t layout, const cqlp_limits *limits, const uint8_t *stream, size_t length, cqlp_end *end);
static inline uint32_t cqlp_check(const cqlp_limits *limits, const uint8_t *stream, size_t length, cqlp_end *end) {
  return cqlp_check_by_layout(CQLP_LAYOUT, limits, stream, length, end);
}

uint32_t cqlp_types_of_by_layout(uint32_t layout, cqlp_decoder *decoder, cqlp_types *types);
static inline uint32_t cqlp_types_of(cqlp_decoder *decoder, cqlp_types *types) {
  return cqlp_types_of_by_layout(CQLP_LAYOUT, decoder, types);
}

uint32_t cqlp_take_given_by_layout(uint32_t layout, cqlp_decoder *decoder, cqlp_types *types);
static inline uint32_t cqlp_take_given(cqlp_decoder *decoder, cqlp_types *types) {
  return cqlp_take_given_by_layout(CQLP_LAYOUT, decoder, types);
}

uint32_t cqlp_columns_new_by_layout(uint32_t layout, const cqlp_batch_limits *limits, const uint8_t *kinds, size_t count, cqlp_columns *columns);
static inline uint32_t cqlp_columns_new(const cqlp_batch_limits *limits, const uint8_t *kinds, size_t count, cqlp_columns *columns) {
  return cqlp_columns_new_by_layout(CQLP_LAYOUT, limits, kinds, count, columns);
}

uint32_t cqlp_client_new_by_layout(uint32_t layout, uint32_t slots, cqlp_client *client);
static inline uint32_t cqlp_client_new(uint32_t slots, cqlp_client *client) {
  return cqlp_client_new_by_layout(CQLP_LAYOUT, slots, client);
}

uint32_t cqlp_server_new_by_layout(uint32_t layout, uint32_t slots, cqlp_server *server);
static inline uint32_t cqlp_server_new(uint32_t slots, cqlp_server *server) {
  return cqlp_server_new_by_layout(CQLP_LAYOUT, slots, server);
}

uint32_t cqlp_write_header_by_layout(uint32_t layout, const cqlp_header *fields, uint8_t bytes[9]);
static inline uint32_t cqlp_write_header(const cqlp_header *fields, uint8_t bytes[9]) {
  return cqlp_write_header_by_layout(CQLP_LAYOUT, fields, bytes);
}

uint32_t cqlp_encode_by_layout(uint32_t layout, const cqlp_event *events, size_t count, const uint8_t *contents, size_t length,
                               uint8_t *bytes, size_t room, cqlp_encoded *encoded);
static inline uint32_t cqlp_encode(const cqlp_event *events, size_t count, const uint8_t *contents, size_t length, uint8_t *bytes,
                                   size_t room, cqlp_encoded *encoded) {
  return cqlp_encode_by_layout(CQLP_LAYOUT, events, count, contents, length, bytes, room, encoded);
}

uint32_t cqlp_page_measure_by_layout(uint32_t layout, const cqlp_event *events, size_t count, const uint8_t *contents, size_t length,
                                     cqlp_measured *measured);
static inline uint32_t cqlp_page_measure(const cqlp_event *events, size_t count, const uint8_t *contents, size_t length, cqlp_measured *measured) {
  return cqlp_page_measure_by_layout(CQLP_LAYOUT, events, count, contents, length, measured);
}

uint32_t cqlp_page_begin_by_layout(uint32_t layout, const cqlp_event *events, size_t count, const uint8_t *contents, size_t length,
                                   uint64_t size, uint8_t *bytes, size_t room, cqlp_page *page, cqlp_encoded *begun);
static inline uint32_t cqlp_page_begin(const cqlp_event *events, size_t count, const uint8_t *contents, size_t length, uint64_t size,
                                       uint8_t *bytes, size_t room, cqlp_page *page, cqlp_encoded *begun) {
  return cqlp_page_begin_by_layout(CQLP_LAYOUT, events, count, contents, length, size, bytes, room, page, begun);
}

#ifdef __cplusplus
}
#endif

#endif
