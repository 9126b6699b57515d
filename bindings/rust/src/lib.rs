//! Blocks, compact blocks (BIP 152) and messages of Bitcoin, by the proved functions of the C library cbrelay.
//!
//! Each function takes slices and gives values, and may be called by any thread. Hashes are in wire order, the reverse of what people
//! write. What each checks, and what a block's check leaves out, stands in cbrelay.h at the function of the same name. No function of
//! the library has a condition but on its pointers, and a slice's is good: so all of these are safe.
//!
//! `cargo build` links libcbrelay.a below `CBRELAY_PREFIX`, or where pkg-config finds it.
#![warn(missing_docs)]

pub mod sys;

use std::fmt;
pub use sys::{Address, Entry, Hash, Header, Input, Key, Output, Span};

const TOO_SMALL: u32 = 65_536;
const PARTIAL: u32 = 65_537;
/// How many bytes stand before a message's payload.
pub const ENVELOPE: usize = 24;

/// Why a call refused what it was given. It is shown as `F2 Truncated`.
#[derive(Clone, Copy, Debug, PartialEq, Eq)]
pub struct Fault(u32);

impl Fault {
    /// The status, as C gets it.
    pub fn status(self) -> u32 {
        self.0
    }

    /// The number of the fault, 1 to 28, or of one that has none 0.
    pub fn number(self) -> u32 {
        if self.0 < TOO_SMALL { self.0 & 255 } else { 0 }
    }

    /// The number of the rule that a transaction breaks, or 0.
    pub fn rule(self) -> u32 {
        if self.0 < TOO_SMALL { self.0 >> 8 } else { 0 }
    }
}

impl fmt::Display for Fault {
    fn fmt(&self, to: &mut fmt::Formatter) -> fmt::Result {
        let (mut out, mut len) = ([0; 32], 0);
        unsafe { sys::cbrelay_fault_text(self.0, out.as_mut_ptr(), out.len(), &mut len) };
        to.write_str(&String::from_utf8_lossy(&out[..len]))
    }
}

impl std::error::Error for Fault {}

/// What a call comes to.
pub type Result<T> = std::result::Result<T, Fault>;

/// A transaction's fields. Scripts are places in its bytes.
#[derive(Clone, Debug, PartialEq, Eq)]
pub struct Tx {
    /// The version.
    pub version: i32,
    /// What it spends.
    pub inputs: Vec<Input>,
    /// What it makes.
    pub outputs: Vec<Output>,
    /// The lock time.
    pub lock_time: u32,
}

/// What rebuilding a block comes to.
#[derive(Clone, Debug, PartialEq, Eq)]
pub enum Rebuilt {
    /// The whole block, which is sound.
    Block(Vec<u8>),
    /// The payload of the `getblocktxn` that asks for what is missing.
    Request(Vec<u8>),
    /// The compact block is of no use.
    Useless,
}

/// A whole message at the front of a stream.
#[derive(Clone, Copy, Debug, PartialEq, Eq)]
pub struct Envelope<'a> {
    /// The command, padded with zeros.
    pub command: &'a [u8],
    /// The payload.
    pub payload: &'a [u8],
    /// Why the payload can't be read, if it can't.
    pub fault: Option<Fault>,
    /// What follows in the stream.
    pub rest: &'a [u8],
}

fn checked(status: u32) -> Result<()> {
    if status == 0 { Ok(()) } else { Err(Fault(status)) }
}

/// The list that a call writes: first into one of this size, and again where it needs a larger one.
fn filled<T: Clone + Default>(guess: usize, call: impl Fn(*mut T, usize, &mut usize) -> u32) -> Result<Vec<T>> {
    let (mut out, mut len) = (vec![T::default(); guess], 0);
    let mut status = call(out.as_mut_ptr(), out.len(), &mut len);
    if status == TOO_SMALL {
        out.resize(len, T::default());
        status = call(out.as_mut_ptr(), out.len(), &mut len);
    }
    checked(status)?;
    out.truncate(len);
    Ok(out)
}

/// The interface that the library was built with: its major and its minor number.
pub fn version() -> (u32, u32) {
    let number = unsafe { sys::cbrelay_version() };
    (number >> 16, number & 0xffff)
}

// ---- hashes

/// The double SHA-256.
pub fn sha256d(bytes: &[u8]) -> Hash {
    let mut hash = Hash::default();
    unsafe { sys::cbrelay_sha256d(bytes.as_ptr(), bytes.len(), &mut hash) };
    hash
}

/// The txid of a transaction.
pub fn txid(tx: &[u8]) -> Result<Hash> {
    let mut hash = Hash::default();
    checked(unsafe { sys::cbrelay_txid(tx.as_ptr(), tx.len(), &mut hash) })?;
    Ok(hash)
}

/// The hash of a block, from the 80 bytes of its header.
pub fn block_hash(header: &[u8]) -> Result<Hash> {
    let mut hash = Hash::default();
    checked(unsafe { sys::cbrelay_block_hash(header.as_ptr(), header.len(), &mut hash) })?;
    Ok(hash)
}

/// The Merkle root of hashes, and whether the tree is mutated (CVE-2012-2459).
pub fn merkle_root(hashes: &[Hash]) -> Result<(Hash, bool)> {
    let (mut root, mut mutated) = (Hash::default(), 0);
    checked(unsafe { sys::cbrelay_merkle_root(hashes.as_ptr(), hashes.len(), &mut root, &mut mutated) })?;
    Ok((root, mutated == 1))
}

/// SipHash-2-4.
pub fn sip24(key: &Key, bytes: &[u8]) -> u64 {
    unsafe { sys::cbrelay_sip24(key, bytes.as_ptr(), bytes.len()) }
}

/// The key of short ids under a header of 80 bytes and a nonce (BIP 152).
pub fn short_id_key(header: &[u8], nonce: u64) -> Result<Key> {
    let mut key = Key::default();
    checked(unsafe { sys::cbrelay_short_id_key(header.as_ptr(), header.len(), nonce, &mut key) })?;
    Ok(key)
}

/// The short id of a txid under a key (BIP 152).
pub fn short_id(key: &Key, txid: &Hash) -> u64 {
    unsafe { sys::cbrelay_short_id(key, txid) }
}

// ---- headers, transactions, blocks

/// Reads the header of 80 bytes.
pub fn header_read(header: &[u8]) -> Result<Header> {
    let mut fields = Header::default();
    checked(unsafe { sys::cbrelay_header_read(header.as_ptr(), header.len(), &mut fields) })?;
    Ok(fields)
}

/// The 80 bytes of a header.
pub fn header_write(header: &Header) -> [u8; 80] {
    let (mut out, mut len) = ([0; 80], 0);
    unsafe { sys::cbrelay_header_write(header, out.as_mut_ptr(), out.len(), &mut len) };
    out
}

/// Whether a header has the work that regtest asks for.
pub fn header_check(header: &[u8]) -> Result<()> {
    checked(unsafe { sys::cbrelay_header_check(header.as_ptr(), header.len()) })
}

/// Reads a transaction.
pub fn tx_read(tx: &[u8]) -> Result<Tx> {
    // an input takes at least 41 bytes, an output 9
    let mut inputs = vec![Input::default(); tx.len() / 41 + 1];
    let mut outputs = vec![Output::default(); tx.len() / 9 + 1];
    let mut fields = sys::Tx::default();
    let (spent, made) = ((inputs.as_mut_ptr(), inputs.len()), (outputs.as_mut_ptr(), outputs.len()));
    checked(unsafe { sys::cbrelay_tx_read(tx.as_ptr(), tx.len(), spent.0, spent.1, made.0, made.1, &mut fields) })?;
    inputs.truncate(fields.inputs);
    outputs.truncate(fields.outputs);
    Ok(Tx { version: fields.version, inputs, outputs, lock_time: fields.lock_time })
}

/// Whether a transaction meets the rules that one meets by itself.
pub fn tx_check(tx: &[u8]) -> Result<()> {
    checked(unsafe { sys::cbrelay_tx_check(tx.as_ptr(), tx.len()) })
}

/// Whether a block's transactions are the only ones that fit its header.
pub fn block_sound(block: &[u8]) -> Result<()> {
    checked(unsafe { sys::cbrelay_block_sound(block.as_ptr(), block.len()) })
}

/// Whether a block is sound and meets the rules that one meets by itself. This is not consensus.
pub fn block_check(block: &[u8]) -> Result<()> {
    checked(unsafe { sys::cbrelay_block_check(block.as_ptr(), block.len()) })
}

/// Where each transaction lies in a block.
pub fn block_transactions_at(block: &[u8]) -> Result<Vec<Span>> {
    let (text, len) = (block.as_ptr(), block.len());
    filled(16, |out, room, count| unsafe { sys::cbrelay_block_transactions_at(text, len, out, room, count) })
}

// ---- compact blocks

/// The payload of the `cmpctblock` of a block under a nonce.
pub fn compact_block(block: &[u8], nonce: u64) -> Result<Vec<u8>> {
    let (text, size) = (block.as_ptr(), block.len());
    filled(size + 10, |out, room, len| unsafe { sys::cbrelay_compact_block(text, size, nonce, out, room, len) })
}

/// What a call that rebuilds writes, and its kind.
fn rebuilt(call: impl Fn(*mut u8, usize, &mut usize, &mut u32) -> u32) -> Result<Rebuilt> {
    let kind = std::cell::Cell::new(0);
    let text = filled(1_000_000, |out, room, len| {
        let mut told = 0;
        let status = call(out, room, len, &mut told);
        kind.set(told);
        status
    })?;
    Ok(match kind.get() {
        0 => Rebuilt::Block(text),
        1 => Rebuilt::Request(text),
        _ => Rebuilt::Useless,
    })
}

/// Rebuilds the block of a `cmpctblock` payload from known transactions: their count as a CompactSize, then each.
pub fn rebuild_block(message: &[u8], txs: &[u8]) -> Result<Rebuilt> {
    rebuilt(|out, room, len, kind| unsafe {
        sys::cbrelay_rebuild_block(message.as_ptr(), message.len(), txs.as_ptr(), txs.len(), out, room, len, kind)
    })
}

/// The same, where the txids of the transactions are known, so that none is hashed.
pub fn rebuild_block_known(message: &[u8], txs: &[u8], txids: &[Hash]) -> Result<Rebuilt> {
    let (names, count) = (txids.as_ptr(), txids.len());
    rebuilt(|out, room, len, kind| unsafe {
        sys::cbrelay_rebuild_block_known(message.as_ptr(), message.len(), txs.as_ptr(), txs.len(), names, count, out, room, len, kind)
    })
}

/// The payload of the `getblocktxn` that asks for what is missing; empty where nothing has to be asked for.
pub fn block_transactions_request(message: &[u8], txs: &[u8]) -> Result<Vec<u8>> {
    filled(4096, |out, room, len| unsafe {
        sys::cbrelay_block_transactions_request(message.as_ptr(), message.len(), txs.as_ptr(), txs.len(), out, room, len)
    })
}

/// The payload of the `blocktxn` that answers a `getblocktxn` payload from its block.
pub fn block_transactions(block: &[u8], request: &[u8]) -> Result<Vec<u8>> {
    filled(block.len(), |out, room, len| unsafe {
        sys::cbrelay_block_transactions(block.as_ptr(), block.len(), request.as_ptr(), request.len(), out, room, len)
    })
}

/// Rebuilds the block from the same transactions, and from the `blocktxn` payload that answers the request.
pub fn complete_block(message: &[u8], txs: &[u8], answer: &[u8]) -> Result<Rebuilt> {
    let (more, more_len) = (answer.as_ptr(), answer.len());
    rebuilt(|out, room, len, kind| unsafe {
        sys::cbrelay_complete_block(message.as_ptr(), message.len(), txs.as_ptr(), txs.len(), more, more_len, out, room, len, kind)
    })
}

// ---- messages

/// The message at the front of a stream, or `None` while bytes are missing. A fault ends the stream.
pub fn envelope_at(bytes: &[u8]) -> Result<Option<Envelope<'_>>> {
    let (mut len, mut told) = (0, 0);
    match unsafe { sys::cbrelay_envelope_at(bytes.as_ptr(), bytes.len(), &mut len, &mut told) } {
        0 => {
            let (front, rest) = bytes.split_at(ENVELOPE + len);
            let fault = checked(told).err();
            Ok(Some(Envelope { command: &front[4..16], payload: &front[ENVELOPE..], fault, rest }))
        }
        PARTIAL => Ok(None),
        status => Err(Fault(status)),
    }
}

/// Whether a payload is one of this command.
pub fn message_check(command: &str, payload: &[u8]) -> Result<()> {
    checked(unsafe { sys::cbrelay_message_check(command.as_ptr(), command.len(), payload.as_ptr(), payload.len()) })
}

/// The envelope of a command and a payload.
pub fn message_write(command: &str, payload: &[u8]) -> Result<Vec<u8>> {
    let (name, size) = (command.as_ptr(), command.len());
    filled(ENVELOPE + payload.len(), |out, room, len| unsafe {
        sys::cbrelay_message_write(name, size, payload.as_ptr(), payload.len(), out, room, len)
    })
}

/// Reads the nonce of a ping or a pong (BIP 31).
pub fn nonce_read(payload: &[u8]) -> Result<u64> {
    let mut nonce = 0;
    checked(unsafe { sys::cbrelay_nonce_read(payload.as_ptr(), payload.len(), &mut nonce) })?;
    Ok(nonce)
}

/// Reads a version. Its user agent is a place in the payload.
pub fn version_read(payload: &[u8]) -> Result<sys::VersionFields> {
    let mut fields = sys::VersionFields::default();
    checked(unsafe { sys::cbrelay_version_read(payload.as_ptr(), payload.len(), &mut fields) })?;
    Ok(fields)
}

/// Reads a sendcmpct (BIP 152): whether it asks for high bandwidth, and the version.
pub fn sendcmpct_read(payload: &[u8]) -> Result<(bool, u64)> {
    let (mut high, mut number) = (0, 0);
    checked(unsafe { sys::cbrelay_sendcmpct_read(payload.as_ptr(), payload.len(), &mut high, &mut number) })?;
    Ok((high == 1, number))
}

/// Reads the entries of an inv, a getdata or a notfound.
pub fn inventory_read(payload: &[u8]) -> Result<Vec<Entry>> {
    let (text, len) = (payload.as_ptr(), payload.len());
    filled(len / 36, |out, room, count| unsafe { sys::cbrelay_inventory_read(text, len, out, room, count) })
}

/// Reads a getheaders: the protocol version, the block locator, and the hash to stop at.
pub fn getheaders_read(payload: &[u8]) -> Result<(u32, Vec<Hash>, Hash)> {
    let (number, stop) = (std::cell::Cell::new(0), std::cell::Cell::new(Hash::default()));
    let (text, len) = (payload.as_ptr(), payload.len());
    let locator = filled(101, |out, room, count| unsafe {
        sys::cbrelay_getheaders_read(text, len, out, room, count, number.as_ptr(), stop.as_ptr())
    })?;
    Ok((number.get(), locator, stop.get()))
}

/// Reads the headers of a headers.
pub fn headers_read(payload: &[u8]) -> Result<Vec<Header>> {
    let (text, len) = (payload.as_ptr(), payload.len());
    filled(len / 81, |out, room, count| unsafe { sys::cbrelay_headers_read(text, len, out, room, count) })
}

/// Reads a cmpctblock (BIP 152): its header and nonce, its short ids, and its prefilled transactions as places in the payload.
pub fn cmpctblock_read(payload: &[u8]) -> Result<(sys::Compact, Vec<u64>, Vec<sys::Prefilled>)> {
    // an id takes 6 bytes, a prefilled transaction at least 11
    let mut ids = vec![0; payload.len() / 6 + 1];
    let mut whole = vec![sys::Prefilled::default(); payload.len() / 11 + 1];
    let mut fields = sys::Compact::default();
    let (short, full) = ((ids.as_mut_ptr(), ids.len()), (whole.as_mut_ptr(), whole.len()));
    let text = (payload.as_ptr(), payload.len());
    checked(unsafe { sys::cbrelay_cmpctblock_read(text.0, text.1, short.0, short.1, full.0, full.1, &mut fields) })?;
    ids.truncate(fields.ids);
    whole.truncate(fields.prefilled);
    Ok((fields, ids, whole))
}

/// Reads a getblocktxn (BIP 152): the block's hash, and the indexes as differences.
pub fn getblocktxn_read(payload: &[u8]) -> Result<(Hash, Vec<u64>)> {
    let (block, text, len) = (std::cell::Cell::new(Hash::default()), payload.as_ptr(), payload.len());
    let differences = filled(len, |out, room, count| unsafe {
        sys::cbrelay_getblocktxn_read(text, len, out, room, count, block.as_ptr())
    })?;
    Ok((block.get(), differences))
}

/// Reads a blocktxn (BIP 152): the block's hash, and where each transaction lies in the payload.
pub fn blocktxn_read(payload: &[u8]) -> Result<(Hash, Vec<Span>)> {
    let (block, text, len) = (std::cell::Cell::new(Hash::default()), payload.as_ptr(), payload.len());
    let spans = filled(len / 10, |out, room, count| unsafe {
        sys::cbrelay_blocktxn_read(text, len, out, room, count, block.as_ptr())
    })?;
    Ok((block.get(), spans))
}
