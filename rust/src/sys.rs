//! The declarations of `include/dbus_wire.h`, under its names. Its comments say what each is, what
//! a call returns, and what the caller has to ensure. The other modules make these calls safe.
//!
//! # Safety
//!
//! What the header asks of a pointer, Rust ensures of a reference. So a call is sound if it is
//! handed these alone:
//!
//! * Of a slice its pointer and its length. The pointer is not null, and has that many readable
//!   bytes, `isize::MAX` at most, which nothing writes as long as the slice is borrowed. Those of a
//!   `&mut` slice may be written, and overlap no other argument.
//! * References to structs of this module: they are not null, aligned and initialized, and a `&mut`
//!   one overlaps no other argument.
//! * Of a [`dbus_wire_checker`], [`dbus_wire_rules`], [`dbus_wire_handshake`] or
//!   [`dbus_wire_connection`] one that only calls have written since it was made with a null pointer.
//!
//! That there is stack for a call is the one thing that nothing ensures: see the crate's
//! documentation.
#![allow(non_camel_case_types, missing_docs)]

use std::ffi::c_void;
use std::mem::size_of;

pub const DBUS_WIRE_OK: u32 = 0;
pub const DBUS_WIRE_WHOLE: u32 = 0;
pub const DBUS_WIRE_PARTIAL: u32 = 1;
pub const DBUS_WIRE_REFUSED: u32 = 2;
pub const DBUS_WIRE_NO_MEMORY: u32 = 3;
pub const DBUS_WIRE_NO_ROOM: u32 = 4;
pub const DBUS_WIRE_NO_VALUE: u32 = 5;
pub const DBUS_WIRE_NO_KIND: u32 = 6;
pub const DBUS_WIRE_NO_CHECKER: u32 = 7;
pub const DBUS_WIRE_NO_RULE: u32 = 8;
pub const DBUS_WIRE_NO_HANDSHAKE: u32 = 9;
pub const DBUS_WIRE_WAITS: u32 = 11;
pub const DBUS_WIRE_NO_CONNECTION: u32 = 12;

pub const DBUS_WIRE_TYPE_METHOD_CALL: u32 = 1;
pub const DBUS_WIRE_TYPE_METHOD_RETURN: u32 = 2;
pub const DBUS_WIRE_TYPE_ERROR: u32 = 3;
pub const DBUS_WIRE_TYPE_SIGNAL: u32 = 4;

pub const DBUS_WIRE_FLAG_NO_REPLY_EXPECTED: u32 = 1;
pub const DBUS_WIRE_FLAG_NO_AUTO_START: u32 = 2;
pub const DBUS_WIRE_FLAG_ALLOW_INTERACTIVE_AUTHORIZATION: u32 = 4;

pub const DBUS_WIRE_FIELD_PATH: u32 = 1;
pub const DBUS_WIRE_FIELD_INTERFACE: u32 = 2;
pub const DBUS_WIRE_FIELD_MEMBER: u32 = 3;
pub const DBUS_WIRE_FIELD_ERROR_NAME: u32 = 4;
pub const DBUS_WIRE_FIELD_REPLY_SERIAL: u32 = 5;
pub const DBUS_WIRE_FIELD_DESTINATION: u32 = 6;
pub const DBUS_WIRE_FIELD_SENDER: u32 = 7;
pub const DBUS_WIRE_FIELD_SIGNATURE: u32 = 8;
pub const DBUS_WIRE_FIELD_UNIX_FDS: u32 = 9;

pub const DBUS_WIRE_TEXT_STRING: u32 = 1;
pub const DBUS_WIRE_TEXT_OBJECT_PATH: u32 = 2;
pub const DBUS_WIRE_TEXT_INTERFACE: u32 = 3;
pub const DBUS_WIRE_TEXT_MEMBER: u32 = 4;
pub const DBUS_WIRE_TEXT_ERROR_NAME: u32 = 5;
pub const DBUS_WIRE_TEXT_BUS_NAME: u32 = 6;
pub const DBUS_WIRE_TEXT_SIGNATURE: u32 = 7;
pub const DBUS_WIRE_TEXT_SINGLE_TYPE: u32 = 8;

pub const DBUS_WIRE_FDS_ANY: u32 = 0;
pub const DBUS_WIRE_FDS_BELOW_COUNT: u32 = 1;

pub const DBUS_WIRE_REASON_BYTE_ORDER: u32 = 1;
pub const DBUS_WIRE_REASON_KIND: u32 = 2;
pub const DBUS_WIRE_REASON_VERSION: u32 = 3;
pub const DBUS_WIRE_REASON_ZERO_SERIAL: u32 = 4;
pub const DBUS_WIRE_REASON_ARRAY_TOO_LONG: u32 = 5;
pub const DBUS_WIRE_REASON_MESSAGE_TOO_LONG: u32 = 6;
pub const DBUS_WIRE_REASON_PADDING: u32 = 7;
pub const DBUS_WIRE_REASON_OVERRUN: u32 = 8;
pub const DBUS_WIRE_REASON_BOOL: u32 = 9;
pub const DBUS_WIRE_REASON_TEXT: u32 = 10;
pub const DBUS_WIRE_REASON_NUL: u32 = 11;
pub const DBUS_WIRE_REASON_PATH: u32 = 12;
pub const DBUS_WIRE_REASON_SIGNATURE: u32 = 13;
pub const DBUS_WIRE_REASON_INTERFACE: u32 = 14;
pub const DBUS_WIRE_REASON_MEMBER: u32 = 15;
pub const DBUS_WIRE_REASON_ERROR_NAME: u32 = 16;
pub const DBUS_WIRE_REASON_BUS_NAME: u32 = 17;
pub const DBUS_WIRE_REASON_NAME_TOO_LONG: u32 = 18;
pub const DBUS_WIRE_REASON_FIELD_CODE: u32 = 19;
pub const DBUS_WIRE_REASON_FIELD_TWICE: u32 = 20;
pub const DBUS_WIRE_REASON_FIELD_TYPE: u32 = 21;
pub const DBUS_WIRE_REASON_FIELD_MISSING: u32 = 22;
pub const DBUS_WIRE_REASON_TRAILING: u32 = 23;
pub const DBUS_WIRE_REASON_TOO_DEEP: u32 = 24;
pub const DBUS_WIRE_REASON_TRUNCATED: u32 = 25;
pub const DBUS_WIRE_REASON_FD_INDEX: u32 = 26;
pub const DBUS_WIRE_REASON_NOT_YET: u32 = 27;
pub const DBUS_WIRE_REASON_NOT_UTF8: u32 = 28;
pub const DBUS_WIRE_REASON_NOT_JSON: u32 = 29;
pub const DBUS_WIRE_REASON_FORM: u32 = 30;
pub const DBUS_WIRE_REASON_MEMBER_UNKNOWN: u32 = 31;
pub const DBUS_WIRE_REASON_MEMBER_TWICE: u32 = 32;
pub const DBUS_WIRE_REASON_TYPE_MISSING: u32 = 33;
pub const DBUS_WIRE_REASON_VALUE_MISSING: u32 = 34;
pub const DBUS_WIRE_REASON_CODE_MISSING: u32 = 35;
pub const DBUS_WIRE_REASON_BODY_MISSING: u32 = 36;
pub const DBUS_WIRE_REASON_ORDER: u32 = 37;
pub const DBUS_WIRE_REASON_FIELD_KNOWN: u32 = 38;
pub const DBUS_WIRE_REASON_FIELD_PLACE: u32 = 39;
pub const DBUS_WIRE_REASON_NOT_INTEGER: u32 = 40;
pub const DBUS_WIRE_REASON_RANGE: u32 = 41;
pub const DBUS_WIRE_REASON_DIGITS: u32 = 42;
pub const DBUS_WIRE_REASON_COUNT: u32 = 43;
pub const DBUS_WIRE_REASON_MAY_BE_ROUNDED: u32 = 44;

pub const DBUS_WIRE_RULE_REASON_NUL: u32 = 1;
pub const DBUS_WIRE_RULE_REASON_NO_EQUALS: u32 = 2;
pub const DBUS_WIRE_RULE_REASON_KEY_NAME: u32 = 3;
pub const DBUS_WIRE_RULE_REASON_KEY_TWICE: u32 = 4;
pub const DBUS_WIRE_RULE_REASON_PATH_AND_NAMESPACE: u32 = 5;
pub const DBUS_WIRE_RULE_REASON_OPEN_QUOTE: u32 = 6;
pub const DBUS_WIRE_RULE_REASON_BAD_VALUE: u32 = 7;
pub const DBUS_WIRE_RULE_REASON_NOT_UTF8: u32 = 8;

pub const DBUS_WIRE_ADDRESS_REASON_TOO_LONG: u32 = 1;
pub const DBUS_WIRE_ADDRESS_REASON_TRANSPORT: u32 = 2;
pub const DBUS_WIRE_ADDRESS_REASON_KEY: u32 = 3;
pub const DBUS_WIRE_ADDRESS_REASON_VALUE: u32 = 4;
pub const DBUS_WIRE_ADDRESS_REASON_ESCAPE: u32 = 5;
pub const DBUS_WIRE_ADDRESS_REASON_KEY_TWICE: u32 = 6;
pub const DBUS_WIRE_ADDRESS_REASON_GUID: u32 = 7;

pub const DBUS_WIRE_EXTERNAL_AS_USER: u32 = 1;
pub const DBUS_WIRE_EXTERNAL_AS_REPORTED: u32 = 2;

pub const DBUS_WIRE_EVENT_WANTS: u32 = 0;
pub const DBUS_WIRE_EVENT_UNSENT: u32 = 1;
pub const DBUS_WIRE_EVENT_BEGUN: u32 = 2;
pub const DBUS_WIRE_EVENT_MESSAGE: u32 = 3;
pub const DBUS_WIRE_EVENT_REFUSED: u32 = 4;
pub const DBUS_WIRE_EVENT_FAILED: u32 = 5;
pub const DBUS_WIRE_EVENT_OVER: u32 = 6;
pub const DBUS_WIRE_EVENT_PASSED: u32 = 7;
pub const DBUS_WIRE_EVENT_TOO_FEW: u32 = 8;

pub const DBUS_WIRE_LINE_OTHER: u32 = 0;
pub const DBUS_WIRE_LINE_AUTH: u32 = 1;
pub const DBUS_WIRE_LINE_CANCEL: u32 = 2;
pub const DBUS_WIRE_LINE_BEGIN: u32 = 3;
pub const DBUS_WIRE_LINE_DATA: u32 = 4;
pub const DBUS_WIRE_LINE_ERROR: u32 = 5;
pub const DBUS_WIRE_LINE_NEGOTIATE_UNIX_FD: u32 = 6;
pub const DBUS_WIRE_LINE_REJECTED: u32 = 7;
pub const DBUS_WIRE_LINE_OK: u32 = 8;
pub const DBUS_WIRE_LINE_AGREE_UNIX_FD: u32 = 9;
pub const DBUS_WIRE_LINE_NUL: u32 = 10;

#[repr(C)]
#[derive(Clone, Copy, Debug, Default)]
pub struct dbus_wire_limits {
    pub message: u32,
    pub array: u32,
    pub depth: u32,
    pub fds: u32,
}

#[repr(C)]
#[derive(Clone, Copy, Debug, Default)]
pub struct dbus_wire_checked {
    pub length: u64,
    pub offset: u64,
    pub order: u32,
    pub reason: u32,
    pub field: u32,
    pub reserved: u32,
}

#[repr(C)]
#[derive(Clone, Copy, Debug, Default)]
pub struct dbus_wire_text {
    pub offset: u64,
    pub length: u64,
    pub is_there: u64,
}

#[repr(C)]
#[derive(Clone, Copy, Debug, Default)]
pub struct dbus_wire_parts {
    pub length: u64,
    pub body: u64,
    pub order: u32,
    pub kind: u32,
    pub flags: u32,
    pub serial: u32,
    pub reply_serial: u32,
    pub unix_fds: u32,
    pub path: dbus_wire_text,
    pub interface: dbus_wire_text,
    pub member: dbus_wire_text,
    pub error_name: dbus_wire_text,
    pub destination: dbus_wire_text,
    pub sender: dbus_wire_text,
    pub signature: dbus_wire_text,
}

#[repr(C)]
#[derive(Clone, Copy, Debug)]
pub struct dbus_wire_draft_text {
    pub bytes: *const u8,
    pub length: usize,
    pub is_there: u64,
}

#[repr(C)]
#[derive(Clone, Copy, Debug)]
pub struct dbus_wire_draft {
    pub order: u32,
    pub kind: u32,
    pub flags: u32,
    pub serial: u32,
    pub reply_serial: u32,
    pub unix_fds: u32,
    pub path: dbus_wire_draft_text,
    pub interface: dbus_wire_draft_text,
    pub member: dbus_wire_draft_text,
    pub error_name: dbus_wire_draft_text,
    pub destination: dbus_wire_draft_text,
    pub sender: dbus_wire_draft_text,
    pub signature: dbus_wire_draft_text,
    pub body: *const u8,
    pub body_length: usize,
}

#[repr(C)]
#[derive(Clone, Copy, Debug, Default)]
pub struct dbus_wire_flat_item {
    pub number: u64,
    pub offset: u64,
    pub length: u64,
    pub code: u32,
    pub element: u32,
}

#[repr(C)]
#[derive(Clone, Copy, Debug, Default)]
pub struct dbus_wire_whole_count {
    pub fields: u64,
    pub all: u64,
}

#[repr(C)]
#[derive(Clone, Copy, Debug, Default)]
pub struct dbus_wire_input_place {
    pub number: u64,
    pub offset: u64,
}

#[repr(C)]
#[derive(Clone, Copy, Debug, Default)]
pub struct dbus_wire_explained {
    pub length: u64,
    pub name: dbus_wire_text,
    pub head: dbus_wire_text,
    pub rule: dbus_wire_text,
    pub text: dbus_wire_text,
}

#[repr(C)]
#[derive(Clone, Copy, Debug, Default)]
pub struct dbus_wire_line_place {
    pub number: u64,
    pub offset: u64,
    pub time: u64,
    pub has_time: u64,
}

#[repr(C)]
#[derive(Clone, Copy, Debug, Default)]
pub struct dbus_wire_writer {
    pub length: u64,
    pub order: u32,
    pub reserved: u32,
}

#[repr(C)]
#[derive(Clone, Copy, Debug, Default)]
pub struct dbus_wire_array {
    pub length_at: u64,
    pub start: u64,
}

#[repr(C)]
#[derive(Clone, Copy, Debug, Default)]
pub struct dbus_wire_text_checked {
    pub offset: u64,
    pub is_too_long: u32,
    pub reserved: u32,
}

#[repr(C)]
#[derive(Debug)]
pub struct dbus_wire_checker {
    pub inner: *mut c_void,
}

#[repr(C)]
#[derive(Clone, Copy, Debug, Default)]
pub struct dbus_wire_taken {
    pub count: u64,
    pub offset: u64,
    pub reason: u32,
    pub field: u32,
}

#[repr(C)]
#[derive(Debug)]
pub struct dbus_wire_rules {
    pub inner: *mut c_void,
}

#[repr(C)]
#[derive(Clone, Copy, Debug, Default, PartialEq, Eq, Hash)]
pub struct dbus_wire_rule_id {
    pub kind: u8,
    pub hash: u64,
    pub number: u64,
}

#[repr(C)]
#[derive(Clone, Copy, Debug, Default)]
pub struct dbus_wire_rule_refused {
    pub offset: u64,
    pub reason: u32,
    pub reserved: u32,
}

#[repr(C)]
#[derive(Clone, Copy, Debug, Default)]
pub struct dbus_wire_mechanisms {
    pub external: u32,
    pub user: u32,
    pub anonymous: u32,
    pub descriptors: u32,
}

#[repr(C)]
#[derive(Debug)]
pub struct dbus_wire_handshake {
    pub inner: *mut c_void,
}

#[repr(C)]
#[derive(Clone, Copy, Debug, Default)]
pub struct dbus_wire_handshake_step {
    pub count: u64,
    pub reply: u64,
}

#[repr(C)]
#[derive(Debug)]
pub struct dbus_wire_connection {
    pub inner: *mut c_void,
}

#[repr(C)]
#[derive(Clone, Copy, Debug, Default)]
pub struct dbus_wire_connection_step {
    pub count: u64,
    pub wanted: u64,
    pub call: u64,
    pub offset: u64,
    pub event: u32,
    pub is_reply: u32,
    pub unix_fds: u32,
    pub descriptors: u32,
    pub reason: u32,
    pub field: u32,
    pub serial: u32,
    pub kind: u16,
    pub flags: u16,
    pub guid: [u8; 16],
}

#[repr(C)]
#[derive(Clone, Copy, Debug, Default)]
pub struct dbus_wire_watch {
    pub server: u32,
    pub unanswered: u32,
    pub started: u32,
    pub asked: u32,
}

#[repr(C)]
#[derive(Clone, Copy, Debug, Default)]
pub struct dbus_wire_line {
    pub length: u64,
    pub offset: u64,
    pub command: u32,
    pub is_too_long: u16,
    pub is_exact: u16,
    pub mechanism: dbus_wire_text,
    pub text: dbus_wire_text,
}

#[repr(C)]
#[derive(Clone, Copy, Debug, Default)]
pub struct dbus_wire_addresses {
    pub count: u64,
    pub offset: u64,
    pub reason: u32,
    pub reserved: u32,
}

const _: () = assert!(size_of::<dbus_wire_limits>() == 16);
const _: () = assert!(size_of::<dbus_wire_checked>() == 32);
const _: () = assert!(size_of::<dbus_wire_text>() == 24);
const _: () = assert!(size_of::<dbus_wire_parts>() == 208);
const _: () = assert!(size_of::<dbus_wire_draft_text>() == 24);
const _: () = assert!(size_of::<dbus_wire_draft>() == 208);
const _: () = assert!(size_of::<dbus_wire_flat_item>() == 32);
const _: () = assert!(size_of::<dbus_wire_whole_count>() == 16);
const _: () = assert!(size_of::<dbus_wire_input_place>() == 16);
const _: () = assert!(size_of::<dbus_wire_explained>() == 104);
const _: () = assert!(size_of::<dbus_wire_line_place>() == 32);
const _: () = assert!(size_of::<dbus_wire_writer>() == 16);
const _: () = assert!(size_of::<dbus_wire_array>() == 16);
const _: () = assert!(size_of::<dbus_wire_text_checked>() == 16);
const _: () = assert!(size_of::<dbus_wire_checker>() == 8);
const _: () = assert!(size_of::<dbus_wire_taken>() == 24);
const _: () = assert!(size_of::<dbus_wire_rules>() == 8);
const _: () = assert!(size_of::<dbus_wire_rule_id>() == 24);
const _: () = assert!(size_of::<dbus_wire_rule_refused>() == 16);
const _: () = assert!(size_of::<dbus_wire_mechanisms>() == 16);
const _: () = assert!(size_of::<dbus_wire_handshake>() == 8);
const _: () = assert!(size_of::<dbus_wire_handshake_step>() == 16);
const _: () = assert!(size_of::<dbus_wire_connection>() == 8);
const _: () = assert!(size_of::<dbus_wire_connection_step>() == 80);
const _: () = assert!(size_of::<dbus_wire_watch>() == 16);
const _: () = assert!(size_of::<dbus_wire_line>() == 72);
const _: () = assert!(size_of::<dbus_wire_addresses>() == 24);

extern "C" {
    pub fn dbus_wire_version() -> u32;
    pub fn dbus_wire_specification_limits(out: *mut dbus_wire_limits);
    pub fn dbus_wire_check(bytes: *const u8, length: usize, limits: *const dbus_wire_limits, out: *mut dbus_wire_checked) -> u32;
    pub fn dbus_wire_parts_of(
        bytes: *const u8,
        length: usize,
        limits: *const dbus_wire_limits,
        out: *mut dbus_wire_parts,
        told: *mut dbus_wire_checked,
    ) -> u32;
    pub fn dbus_wire_flatten(
        bytes: *const u8,
        length: usize,
        limits: *const dbus_wire_limits,
        first: usize,
        items: *mut dbus_wire_flat_item,
        room: usize,
        count: *mut u64,
        told: *mut dbus_wire_checked,
    ) -> u32;
    pub fn dbus_wire_flatten_fields(
        bytes: *const u8,
        length: usize,
        limits: *const dbus_wire_limits,
        first: usize,
        items: *mut dbus_wire_flat_item,
        room: usize,
        count: *mut u64,
        told: *mut dbus_wire_checked,
    ) -> u32;
    pub fn dbus_wire_flatten_whole(
        bytes: *const u8,
        length: usize,
        limits: *const dbus_wire_limits,
        first: usize,
        items: *mut dbus_wire_flat_item,
        room: usize,
        count: *mut dbus_wire_whole_count,
        told: *mut dbus_wire_checked,
    ) -> u32;
    pub fn dbus_wire_read(
        bytes: *const u8,
        length: usize,
        limits: *const dbus_wire_limits,
        parts: *mut dbus_wire_parts,
        items: *mut dbus_wire_flat_item,
        room: usize,
        count: *mut u64,
        told: *mut dbus_wire_checked,
    ) -> u32;
    pub fn dbus_wire_explain(
        bytes: *const u8,
        length: usize,
        limits: *const dbus_wire_limits,
        place: *const dbus_wire_input_place,
        out: *mut u8,
        room: usize,
        explained: *mut dbus_wire_explained,
        told: *mut dbus_wire_checked,
    ) -> u32;
    pub fn dbus_wire_json(
        bytes: *const u8,
        length: usize,
        limits: *const dbus_wire_limits,
        place: *const dbus_wire_line_place,
        out: *mut u8,
        room: usize,
        count: *mut u64,
        told: *mut dbus_wire_checked,
    ) -> u32;
    pub fn dbus_wire_from_json(
        line: *const u8,
        length: usize,
        limits: *const dbus_wire_limits,
        serial: u32,
        out: *mut u8,
        room: usize,
        told: *mut dbus_wire_checked,
    ) -> u32;
    pub fn dbus_wire_wanted(bytes: *const u8, length: usize, limits: *const dbus_wire_limits) -> u64;
    pub fn dbus_wire_swap(
        bytes: *const u8,
        length: usize,
        limits: *const dbus_wire_limits,
        order: u32,
        out: *mut u8,
        room: usize,
        told: *mut dbus_wire_checked,
    ) -> u32;
    pub fn dbus_wire_build(
        draft: *const dbus_wire_draft,
        limits: *const dbus_wire_limits,
        out: *mut u8,
        room: usize,
        told: *mut dbus_wire_checked,
    ) -> u32;
    pub fn dbus_wire_rebuild(
        bytes: *const u8,
        length: usize,
        limits: *const dbus_wire_limits,
        draft: *const dbus_wire_draft,
        out: *mut u8,
        room: usize,
        told: *mut dbus_wire_checked,
    ) -> u32;
    pub fn dbus_wire_reply_to(
        bytes: *const u8,
        length: usize,
        limits: *const dbus_wire_limits,
        draft: *const dbus_wire_draft,
        out: *mut u8,
        room: usize,
        told: *mut dbus_wire_checked,
    ) -> u32;
    pub fn dbus_wire_put_number(out: *mut u8, room: usize, writer: *mut dbus_wire_writer, width: u32, bits: u64) -> u32;
    pub fn dbus_wire_put_text(out: *mut u8, room: usize, writer: *mut dbus_wire_writer, text: *const u8, length: usize) -> u32;
    pub fn dbus_wire_put_signature(
        out: *mut u8,
        room: usize,
        writer: *mut dbus_wire_writer,
        text: *const u8,
        length: usize,
    ) -> u32;
    pub fn dbus_wire_begin_struct(out: *mut u8, room: usize, writer: *mut dbus_wire_writer) -> u32;
    pub fn dbus_wire_open_array(
        out: *mut u8,
        room: usize,
        writer: *mut dbus_wire_writer,
        alignment: u32,
        array: *mut dbus_wire_array,
    ) -> u32;
    pub fn dbus_wire_close_array(
        out: *mut u8,
        room: usize,
        writer: *const dbus_wire_writer,
        array: *const dbus_wire_array,
    ) -> u32;
    pub fn dbus_wire_text_check(kind: u32, bytes: *const u8, length: usize, out: *mut dbus_wire_text_checked) -> u32;
    pub fn dbus_wire_checker_new(limits: *const dbus_wire_limits, checker: *mut dbus_wire_checker) -> u32;
    pub fn dbus_wire_checker_take(
        checker: *mut dbus_wire_checker,
        piece: *const u8,
        length: usize,
        out: *mut dbus_wire_taken,
    ) -> u32;
    pub fn dbus_wire_checker_restart(checker: *mut dbus_wire_checker) -> u32;
    pub fn dbus_wire_checker_free(checker: *mut dbus_wire_checker);
    pub fn dbus_wire_rules_add(
        rules: *mut dbus_wire_rules,
        text: *const u8,
        length: usize,
        id: *mut dbus_wire_rule_id,
        out: *mut dbus_wire_rule_refused,
    ) -> u32;
    pub fn dbus_wire_rules_remove(rules: *mut dbus_wire_rules, id: *const dbus_wire_rule_id) -> u32;
    pub fn dbus_wire_rules_owner(
        rules: *mut dbus_wire_rules,
        name: *const u8,
        name_length: usize,
        owner: *const u8,
        owner_length: usize,
    ) -> u32;
    pub fn dbus_wire_rules_as_bus(rules: *mut dbus_wire_rules, as_bus: u32) -> u32;
    pub fn dbus_wire_rules_matching(
        rules: *const dbus_wire_rules,
        bytes: *const u8,
        length: usize,
        limits: *const dbus_wire_limits,
        ids: *mut dbus_wire_rule_id,
        room: usize,
        count: *mut u64,
        told: *mut dbus_wire_checked,
    ) -> u32;
    pub fn dbus_wire_rules_may_match(
        rules: *const dbus_wire_rules,
        bytes: *const u8,
        length: usize,
        limits: *const dbus_wire_limits,
        sender: *const u8,
        sender_length: usize,
        may: *mut u32,
        told: *mut dbus_wire_checked,
    ) -> u32;
    pub fn dbus_wire_rules_text(
        rules: *const dbus_wire_rules,
        id: *const dbus_wire_rule_id,
        out: *mut u8,
        room: usize,
        length: *mut u64,
    ) -> u32;
    pub fn dbus_wire_rules_free(rules: *mut dbus_wire_rules);
    pub fn dbus_wire_rule_reason_name(reason: u32, out: *mut u8, room: usize) -> usize;
    pub fn dbus_wire_server_new(
        guid: *const u8,
        length: usize,
        mechanisms: *const dbus_wire_mechanisms,
        handshake: *mut dbus_wire_handshake,
    ) -> u32;
    pub fn dbus_wire_client_new(
        mechanisms: *const dbus_wire_mechanisms,
        trace: *const u8,
        length: usize,
        handshake: *mut dbus_wire_handshake,
    ) -> u32;
    pub fn dbus_wire_handshake_bound(handshake: *mut dbus_wire_handshake, rejections: u32, errors: u32) -> u32;
    pub fn dbus_wire_handshake_take(
        handshake: *mut dbus_wire_handshake,
        piece: *const u8,
        length: usize,
        reply: *mut u8,
        room: usize,
        out: *mut dbus_wire_handshake_step,
    ) -> u32;
    pub fn dbus_wire_handshake_guid(handshake: *const dbus_wire_handshake, out: *mut u8, room: usize) -> u32;
    pub fn dbus_wire_handshake_agreed(handshake: *const dbus_wire_handshake) -> u32;
    pub fn dbus_wire_handshake_free(handshake: *mut dbus_wire_handshake);
    pub fn dbus_wire_connection_new(
        handshake: *mut dbus_wire_handshake,
        limits: *const dbus_wire_limits,
        longest: u32,
        calls: u32,
        connection: *mut dbus_wire_connection,
    ) -> u32;
    pub fn dbus_wire_connection_take(
        connection: *mut dbus_wire_connection,
        bytes: *const u8,
        length: usize,
        out: *mut dbus_wire_connection_step,
    ) -> u32;
    pub fn dbus_wire_connection_descriptor(connection: *mut dbus_wire_connection, at_hand: u64) -> u32;
    pub fn dbus_wire_connection_unsent(connection: *mut dbus_wire_connection, out: *mut u8, room: usize, count: *mut u64) -> u32;
    pub fn dbus_wire_connection_serial(connection: *mut dbus_wire_connection, serial: *mut u32) -> u32;
    pub fn dbus_wire_connection_call(
        connection: *mut dbus_wire_connection,
        destination: *const u8,
        length: usize,
        call: u64,
        serial: *mut u32,
    ) -> u32;
    pub fn dbus_wire_connection_give_up(connection: *mut dbus_wire_connection, serial: u32, call: *mut u64) -> u32;
    pub fn dbus_wire_connection_free(connection: *mut dbus_wire_connection);
    pub fn dbus_wire_client_line(bytes: *const u8, length: usize, out: *mut dbus_wire_line) -> u32;
    pub fn dbus_wire_server_line(bytes: *const u8, length: usize, out: *mut dbus_wire_line) -> u32;
    pub fn dbus_wire_watch_client(watch: *mut dbus_wire_watch, bytes: *const u8, length: usize, out: *mut dbus_wire_line) -> u32;
    pub fn dbus_wire_watch_server(watch: *mut dbus_wire_watch, bytes: *const u8, length: usize, out: *mut dbus_wire_line) -> u32;
    pub fn dbus_wire_address_check(text: *const u8, length: usize, out: *mut dbus_wire_addresses) -> u32;
    pub fn dbus_wire_address_transport(
        text: *const u8,
        length: usize,
        number: u64,
        out: *mut u8,
        room: usize,
        count: *mut u64,
    ) -> u32;
    pub fn dbus_wire_address_value(
        text: *const u8,
        length: usize,
        number: u64,
        key: *const u8,
        key_length: usize,
        out: *mut u8,
        room: usize,
        count: *mut u64,
    ) -> u32;
    pub fn dbus_wire_address_reason_name(reason: u32, out: *mut u8, room: usize) -> usize;
    pub fn dbus_wire_reason_name(reason: u32, out: *mut u8, room: usize) -> usize;
}
