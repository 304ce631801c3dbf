//! What C calls, as include/cqlp.h has it. Not proved. Pointers are what the header asks of them; a slice of no length may be null.
use crate::cqlp_c::*;
use core::slice::{from_raw_parts, from_raw_parts_mut};

unsafe fn slice<'a, T>(at: *const T, len: usize) -> &'a [T] {
    if len == 0 { &[] } else { unsafe { from_raw_parts(at, len) } }
}

unsafe fn slice_mut<'a, T>(at: *mut T, len: usize) -> &'a mut [T] {
    if len == 0 { &mut [] } else { unsafe { from_raw_parts_mut(at, len) } }
}

#[unsafe(no_mangle)]
pub extern "C" fn cqlp_new(limits: &CqlpLimits, decoder: &mut CqlpDecoder) -> u32 {
    crate::cqlp_c::cqlp_new(limits, decoder)
}

#[unsafe(no_mangle)]
pub extern "C" fn cqlp_new_lenient(limits: &CqlpLimits, decoder: &mut CqlpDecoder) -> u32 {
    crate::cqlp_c::cqlp_new_lenient(limits, decoder)
}

#[unsafe(no_mangle)]
pub unsafe extern "C" fn cqlp_next(
    decoder: &mut CqlpDecoder,
    input: *const u8,
    length: usize,
    events: *mut CqlpEvent,
    room: usize,
    batch: &mut CqlpBatch,
) -> u32 {
    let (input, events) = unsafe { (slice(input, length), slice_mut(events, room)) };
    crate::cqlp_c::cqlp_next(decoder, input, events, batch)
}

#[unsafe(no_mangle)]
pub extern "C" fn cqlp_skip(decoder: &mut CqlpDecoder, skipped: &mut CqlpSkipped) -> u32 {
    crate::cqlp_c::cqlp_skip(decoder, skipped)
}

#[unsafe(no_mangle)]
pub extern "C" fn cqlp_finish(decoder: &mut CqlpDecoder, end: &mut CqlpEnd) -> u32 {
    crate::cqlp_c::cqlp_finish(decoder, end)
}

#[unsafe(no_mangle)]
pub extern "C" fn cqlp_held(decoder: &mut CqlpDecoder, held: &mut CqlpHeld) -> u32 {
    crate::cqlp_c::cqlp_held(decoder, held)
}

#[unsafe(no_mangle)]
pub extern "C" fn cqlp_free(decoder: &mut CqlpDecoder) -> u32 {
    crate::cqlp_c::cqlp_free(decoder)
}

#[unsafe(no_mangle)]
pub unsafe extern "C" fn cqlp_check(limits: &CqlpLimits, stream: *const u8, length: usize, end: &mut CqlpEnd) -> u32 {
    crate::cqlp_c::cqlp_check(limits, unsafe { slice(stream, length) }, end)
}

#[unsafe(no_mangle)]
pub extern "C" fn cqlp_types_of(decoder: &mut CqlpDecoder, types: &mut CqlpTypes) -> u32 {
    crate::cqlp_c::cqlp_types_of(decoder, types)
}

#[unsafe(no_mangle)]
pub extern "C" fn cqlp_give(decoder: &mut CqlpDecoder, types: &mut CqlpTypes) -> u32 {
    crate::cqlp_c::cqlp_give(decoder, types)
}

#[unsafe(no_mangle)]
pub extern "C" fn cqlp_take_given(decoder: &mut CqlpDecoder, types: &mut CqlpTypes) -> u32 {
    crate::cqlp_c::cqlp_take_given(decoder, types)
}

#[unsafe(no_mangle)]
pub extern "C" fn cqlp_types_free(types: &mut CqlpTypes) -> u32 {
    crate::cqlp_c::cqlp_types_free(types)
}

#[unsafe(no_mangle)]
pub extern "C" fn cqlp_client_new(slots: u32, client: &mut CqlpClient) -> u32 {
    crate::cqlp_c::cqlp_client_new(slots, client)
}

#[unsafe(no_mangle)]
pub extern "C" fn cqlp_client_begin(client: &mut CqlpClient, opcode: u8, carried: u64, ticket: &mut CqlpTicket) -> u32 {
    crate::cqlp_c::cqlp_client_begin(client, opcode, carried, ticket)
}

#[unsafe(no_mangle)]
pub extern "C" fn cqlp_client_reply(client: &mut CqlpClient, frame: &CqlpEvent, reply: &mut CqlpReply) -> u32 {
    crate::cqlp_c::cqlp_client_reply(client, frame, reply)
}

#[unsafe(no_mangle)]
pub extern "C" fn cqlp_client_cancel(client: &mut CqlpClient, ticket: &CqlpTicket) -> u32 {
    crate::cqlp_c::cqlp_client_cancel(client, ticket)
}

#[unsafe(no_mangle)]
pub extern "C" fn cqlp_client_phase(client: &mut CqlpClient, phase: &mut u8) -> u32 {
    crate::cqlp_c::cqlp_client_phase(client, phase)
}

#[unsafe(no_mangle)]
pub extern "C" fn cqlp_client_free(client: &mut CqlpClient) -> u32 {
    crate::cqlp_c::cqlp_client_free(client)
}

#[unsafe(no_mangle)]
pub extern "C" fn cqlp_server_new(slots: u32, server: &mut CqlpServer) -> u32 {
    crate::cqlp_c::cqlp_server_new(slots, server)
}

#[unsafe(no_mangle)]
pub extern "C" fn cqlp_server_accept(server: &mut CqlpServer, frame: &CqlpEvent, carried: u64) -> u32 {
    crate::cqlp_c::cqlp_server_accept(server, frame, carried)
}

#[unsafe(no_mangle)]
pub extern "C" fn cqlp_server_answer(server: &mut CqlpServer, stream: i16, opcode: u8, answered: &mut CqlpAnswered) -> u32 {
    crate::cqlp_c::cqlp_server_answer(server, stream, opcode, answered)
}

#[unsafe(no_mangle)]
pub extern "C" fn cqlp_server_event(length: u32, flags: u8, bytes: &mut [u8; 9]) -> u32 {
    crate::cqlp_c::cqlp_server_event(length, flags, bytes)
}

#[unsafe(no_mangle)]
pub extern "C" fn cqlp_server_phase(server: &mut CqlpServer, phase: &mut u8) -> u32 {
    crate::cqlp_c::cqlp_server_phase(server, phase)
}

#[unsafe(no_mangle)]
pub extern "C" fn cqlp_server_free(server: &mut CqlpServer) -> u32 {
    crate::cqlp_c::cqlp_server_free(server)
}

#[unsafe(no_mangle)]
pub unsafe extern "C" fn cqlp_version_error(header: &[u8; 9], bytes: *mut u8, room: usize, length: &mut usize) -> u32 {
    crate::cqlp_c::cqlp_version_error(header, unsafe { slice_mut(bytes, room) }, length)
}

#[unsafe(no_mangle)]
pub extern "C" fn cqlp_write_header(fields: &CqlpHeader, bytes: &mut [u8; 9]) -> u32 {
    crate::cqlp_c::cqlp_write_header(fields, bytes)
}

#[unsafe(no_mangle)]
pub unsafe extern "C" fn cqlp_encode(
    events: *const CqlpEvent,
    count: usize,
    contents: *const u8,
    length: usize,
    bytes: *mut u8,
    room: usize,
    encoded: &mut CqlpEncoded,
) -> u32 {
    let (events, contents, bytes) = unsafe { (slice(events, count), slice(contents, length), slice_mut(bytes, room)) };
    crate::cqlp_c::cqlp_encode(events, contents, bytes, encoded)
}

#[unsafe(no_mangle)]
pub unsafe extern "C" fn cqlp_columns_new(limits: &CqlpBatchLimits, kinds: *const u8, count: usize, columns: &mut CqlpColumns) -> u32 {
    crate::cqlp_c::cqlp_columns_new(limits, unsafe { slice(kinds, count) }, columns)
}

#[unsafe(no_mangle)]
pub unsafe extern "C" fn cqlp_columns_next(
    decoder: &mut CqlpDecoder,
    columns: &mut CqlpColumns,
    input: *const u8,
    length: usize,
    event: &mut CqlpEvent,
    batch: &mut CqlpBatch,
) -> u32 {
    crate::cqlp_c::cqlp_columns_next(decoder, columns, unsafe { slice(input, length) }, event, batch)
}

#[unsafe(no_mangle)]
pub extern "C" fn cqlp_columns_get(columns: &mut CqlpColumns, column: usize, view: &mut CqlpColumn) -> u32 {
    crate::cqlp_c::cqlp_columns_get(columns, column, view)
}

#[unsafe(no_mangle)]
pub extern "C" fn cqlp_columns_clear(columns: &mut CqlpColumns) -> u32 {
    crate::cqlp_c::cqlp_columns_clear(columns)
}

#[unsafe(no_mangle)]
pub extern "C" fn cqlp_columns_free(columns: &mut CqlpColumns) -> u32 {
    crate::cqlp_c::cqlp_columns_free(columns)
}

#[unsafe(no_mangle)]
pub unsafe extern "C" fn cqlp_page_measure(events: *const CqlpEvent, count: usize, contents: *const u8, length: usize, measured: &mut CqlpMeasured) -> u32 {
    let (events, contents) = unsafe { (slice(events, count), slice(contents, length)) };
    crate::cqlp_c::cqlp_page_measure(events, contents, measured)
}

#[unsafe(no_mangle)]
pub unsafe extern "C" fn cqlp_page_begin(
    events: *const CqlpEvent,
    count: usize,
    contents: *const u8,
    length: usize,
    size: u64,
    bytes: *mut u8,
    room: usize,
    page: &mut CqlpPage,
    begun: &mut CqlpEncoded,
) -> u32 {
    let (events, contents, bytes) = unsafe { (slice(events, count), slice(contents, length), slice_mut(bytes, room)) };
    crate::cqlp_c::cqlp_page_begin(events, contents, size, bytes, page, begun)
}

#[unsafe(no_mangle)]
pub unsafe extern "C" fn cqlp_page_put(
    page: &mut CqlpPage,
    events: *const CqlpEvent,
    count: usize,
    contents: *const u8,
    length: usize,
    bytes: *mut u8,
    room: usize,
    told: &mut CqlpPut,
) -> u32 {
    let (events, contents, bytes) = unsafe { (slice(events, count), slice(contents, length), slice_mut(bytes, room)) };
    crate::cqlp_c::cqlp_page_put(page, events, contents, bytes, told)
}

#[unsafe(no_mangle)]
pub extern "C" fn cqlp_page_end(page: &mut CqlpPage) -> u32 {
    crate::cqlp_c::cqlp_page_end(page)
}

#[unsafe(no_mangle)]
pub extern "C" fn cqlp_page_free(page: &mut CqlpPage) -> u32 {
    crate::cqlp_c::cqlp_page_free(page)
}
