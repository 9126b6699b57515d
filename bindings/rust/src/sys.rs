//! The declarations of cbrelay.h, as they stand there.
#![allow(missing_docs)]

#[repr(C)]
#[derive(Clone, Copy, Debug, Default, PartialEq, Eq)]
pub struct Hash {
    pub bytes: [u8; 32],
}

#[repr(C)]
#[derive(Clone, Copy, Debug, Default, PartialEq, Eq)]
pub struct Key {
    pub k0: u64,
    pub k1: u64,
}

#[repr(C)]
#[derive(Clone, Copy, Debug, Default, PartialEq, Eq)]
pub struct Header {
    pub version: i32,
    pub prev: Hash,
    pub root: Hash,
    pub time: u32,
    pub bits: u32,
    pub nonce: u32,
}

#[repr(C)]
#[derive(Clone, Copy, Debug, Default, PartialEq, Eq)]
pub struct Span {
    pub offset: usize,
    pub len: usize,
}

#[repr(C)]
#[derive(Clone, Copy, Debug, Default, PartialEq, Eq)]
pub struct Input {
    pub txid: Hash,
    pub index: u32,
    pub sequence: u32,
    pub script: Span,
}

#[repr(C)]
#[derive(Clone, Copy, Debug, Default, PartialEq, Eq)]
pub struct Output {
    pub value: i64,
    pub script: Span,
}

#[repr(C)]
#[derive(Clone, Copy, Debug, Default, PartialEq, Eq)]
pub struct Tx {
    pub version: i32,
    pub lock_time: u32,
    pub inputs: usize,
    pub outputs: usize,
}

#[repr(C)]
#[derive(Clone, Copy, Debug, Default, PartialEq, Eq)]
pub struct Address {
    pub services: u64,
    pub ip: [u8; 16],
    pub port: u16,
}

#[repr(C)]
#[derive(Clone, Copy, Debug, Default, PartialEq, Eq)]
pub struct VersionFields {
    pub version: i32,
    pub relay: u32,
    pub services: u64,
    pub time: i64,
    pub receiver: Address,
    pub sender: Address,
    pub nonce: u64,
    pub agent: Span,
    pub height: i32,
}

#[repr(C)]
#[derive(Clone, Copy, Debug, Default, PartialEq, Eq)]
pub struct Entry {
    pub kind: u32,
    pub hash: Hash,
}

#[repr(C)]
#[derive(Clone, Copy, Debug, Default, PartialEq, Eq)]
pub struct Prefilled {
    pub difference: u64,
    pub tx: Span,
}

#[repr(C)]
#[derive(Clone, Copy, Debug, Default, PartialEq, Eq)]
pub struct Compact {
    pub header: Header,
    pub nonce: u64,
    pub ids: usize,
    pub prefilled: usize,
}

#[rustfmt::skip]
extern "C" {
    pub fn cbrelay_version() -> u32;
    pub fn cbrelay_fault_text(status: u32, out: *mut u8, capacity: usize, len: *mut usize) -> u32;
    pub fn cbrelay_sha256d(bytes: *const u8, len: usize, hash: *mut Hash);
    pub fn cbrelay_txid(tx: *const u8, len: usize, txid: *mut Hash) -> u32;
    pub fn cbrelay_block_hash(header: *const u8, len: usize, hash: *mut Hash) -> u32;
    pub fn cbrelay_merkle_root(hashes: *const Hash, count: usize, root: *mut Hash, mutated: *mut u32) -> u32;
    pub fn cbrelay_sip24(key: *const Key, bytes: *const u8, len: usize) -> u64;
    pub fn cbrelay_short_id_key(header: *const u8, len: usize, nonce: u64, key: *mut Key) -> u32;
    pub fn cbrelay_short_id(key: *const Key, txid: *const Hash) -> u64;
    pub fn cbrelay_header_read(header: *const u8, len: usize, fields: *mut Header) -> u32;
    pub fn cbrelay_header_write(header: *const Header, out: *mut u8, capacity: usize, len: *mut usize) -> u32;
    pub fn cbrelay_header_check(header: *const u8, len: usize) -> u32;
    pub fn cbrelay_tx_read(tx: *const u8, len: usize, inputs: *mut Input, input_capacity: usize, outputs: *mut Output, output_capacity: usize, fields: *mut Tx) -> u32;
    pub fn cbrelay_tx_check(tx: *const u8, len: usize) -> u32;
    pub fn cbrelay_block_sound(block: *const u8, len: usize) -> u32;
    pub fn cbrelay_block_check(block: *const u8, len: usize) -> u32;
    pub fn cbrelay_block_transactions_at(block: *const u8, len: usize, spans: *mut Span, capacity: usize, count: *mut usize) -> u32;
    pub fn cbrelay_compact_block(block: *const u8, block_len: usize, nonce: u64, out: *mut u8, capacity: usize, len: *mut usize) -> u32;
    pub fn cbrelay_rebuild_block(message: *const u8, message_len: usize, txs: *const u8, txs_len: usize, out: *mut u8, capacity: usize, len: *mut usize, kind: *mut u32) -> u32;
    pub fn cbrelay_rebuild_block_known(message: *const u8, message_len: usize, txs: *const u8, txs_len: usize, txids: *const Hash, txid_count: usize, out: *mut u8, capacity: usize, len: *mut usize, kind: *mut u32) -> u32;
    pub fn cbrelay_block_transactions_request(message: *const u8, message_len: usize, txs: *const u8, txs_len: usize, out: *mut u8, capacity: usize, len: *mut usize) -> u32;
    pub fn cbrelay_block_transactions(block: *const u8, block_len: usize, request: *const u8, request_len: usize, out: *mut u8, capacity: usize, len: *mut usize) -> u32;
    pub fn cbrelay_complete_block(message: *const u8, message_len: usize, txs: *const u8, txs_len: usize, answer: *const u8, answer_len: usize, out: *mut u8, capacity: usize, len: *mut usize, kind: *mut u32) -> u32;
    pub fn cbrelay_envelope_at(bytes: *const u8, len: usize, payload_len: *mut usize, told: *mut u32) -> u32;
    pub fn cbrelay_message_check(command: *const u8, command_len: usize, payload: *const u8, payload_len: usize) -> u32;
    pub fn cbrelay_message_write(command: *const u8, command_len: usize, payload: *const u8, payload_len: usize, out: *mut u8, capacity: usize, len: *mut usize) -> u32;
    pub fn cbrelay_version_read(payload: *const u8, len: usize, fields: *mut VersionFields) -> u32;
    pub fn cbrelay_nonce_read(payload: *const u8, len: usize, nonce: *mut u64) -> u32;
    pub fn cbrelay_sendcmpct_read(payload: *const u8, len: usize, high_bandwidth: *mut u32, version: *mut u64) -> u32;
    pub fn cbrelay_inventory_read(payload: *const u8, len: usize, entries: *mut Entry, capacity: usize, count: *mut usize) -> u32;
    pub fn cbrelay_getheaders_read(payload: *const u8, len: usize, locator: *mut Hash, capacity: usize, count: *mut usize, version: *mut u32, stop: *mut Hash) -> u32;
    pub fn cbrelay_headers_read(payload: *const u8, len: usize, headers: *mut Header, capacity: usize, count: *mut usize) -> u32;
    pub fn cbrelay_cmpctblock_read(payload: *const u8, len: usize, ids: *mut u64, id_capacity: usize, prefilled: *mut Prefilled, prefilled_capacity: usize, fields: *mut Compact) -> u32;
    pub fn cbrelay_getblocktxn_read(payload: *const u8, len: usize, differences: *mut u64, capacity: usize, count: *mut usize, block: *mut Hash) -> u32;
    pub fn cbrelay_blocktxn_read(payload: *const u8, len: usize, spans: *mut Span, capacity: usize, count: *mut usize, block: *mut Hash) -> u32;
}
