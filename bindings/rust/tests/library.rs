//! Values that public sources tell, and what comes of bytes that can't be read.

use cbrelay::{Hash, Key, Rebuilt};

const BLOCK_170: &[u8] = include_bytes!("../../../examples/library/block-170.bin");

fn shown(hash: &Hash) -> String {
    hash.bytes.iter().rev().map(|byte| format!("{byte:02x}")).collect()
}

fn listed(txs: &[&[u8]]) -> Vec<u8> {
    let mut text = vec![txs.len() as u8];
    txs.iter().for_each(|tx| text.extend_from_slice(tx));
    text
}

#[test]
fn block_170_is_read_and_checked() {
    assert_eq!(cbrelay::block_check(BLOCK_170), Ok(()));
    let hash = cbrelay::block_hash(&BLOCK_170[..80]).unwrap();
    assert_eq!(shown(&hash), "00000000d1145790a8694403d4063f323d499e655c83426834d4ce2f8dd4a2ee");
    let spans = cbrelay::block_transactions_at(BLOCK_170).unwrap();
    let payment = &BLOCK_170[spans[1].offset..][..spans[1].len];
    let txid = cbrelay::txid(payment).unwrap();
    assert_eq!(shown(&txid), "f4184fc596403b9d638783cf57adfe4c75c605f6356fbc91338530e9831e9e16");
    let values: Vec<i64> = cbrelay::tx_read(payment).unwrap().outputs.iter().map(|it| it.value).collect();
    assert_eq!(values, [1_000_000_000, 4_000_000_000]);
}

#[test]
fn a_header_is_written_as_it_was_read() {
    let header = cbrelay::header_read(&BLOCK_170[..80]).unwrap();
    assert_eq!(cbrelay::header_write(&header), BLOCK_170[..80]);
    assert_eq!(cbrelay::header_check(&BLOCK_170[..80]).unwrap_err().to_string(), "F11 BadWork");
}

#[test]
fn faults_have_numbers_and_names() {
    let fault = cbrelay::block_check(&BLOCK_170[..100]).unwrap_err();
    assert_eq!((fault.number(), fault.rule(), fault.to_string().as_str()), (2, 0, "F2 Truncated"));
    let more = [BLOCK_170, &[0]].concat();
    assert_eq!(cbrelay::block_check(&more).unwrap_err().to_string(), "F14 Trailing");
    let empty_tx = [1, 0, 0, 0, 0, 0, 0, 0, 0, 0];
    let fault = cbrelay::tx_check(&empty_tx).unwrap_err();
    assert_eq!((fault.number(), fault.rule(), fault.to_string().as_str()), (5, 1, "F5 BadTx 1"));
    assert_eq!(cbrelay::message_check("", &[]).unwrap_err().to_string(), "Damaged");
}

#[test]
fn a_compact_block_is_rebuilt_asked_for_and_completed() {
    let spans = cbrelay::block_transactions_at(BLOCK_170).unwrap();
    let payment = &BLOCK_170[spans[1].offset..][..spans[1].len];
    let form = cbrelay::compact_block(BLOCK_170, 7).unwrap();
    let (fields, ids, prefilled) = cbrelay::cmpctblock_read(&form).unwrap();
    assert_eq!((fields.nonce, ids.len(), prefilled.len()), (7, 1, 1));
    let key = cbrelay::short_id_key(&BLOCK_170[..80], 7).unwrap();
    let txid = cbrelay::txid(payment).unwrap();
    assert_eq!(cbrelay::short_id(&key, &txid), ids[0]);
    let known = listed(&[payment]);
    assert_eq!(cbrelay::rebuild_block(&form, &known), Ok(Rebuilt::Block(BLOCK_170.to_vec())));
    assert_eq!(cbrelay::rebuild_block_known(&form, &known, &[txid]), Ok(Rebuilt::Block(BLOCK_170.to_vec())));
    let request = cbrelay::block_transactions_request(&form, &listed(&[])).unwrap();
    assert_eq!(cbrelay::rebuild_block(&form, &listed(&[])), Ok(Rebuilt::Request(request.clone())));
    assert_eq!(cbrelay::getblocktxn_read(&request), Ok((cbrelay::block_hash(&BLOCK_170[..80]).unwrap(), vec![1])));
    let answer = cbrelay::block_transactions(BLOCK_170, &request).unwrap();
    assert_eq!(cbrelay::complete_block(&form, &listed(&[]), &answer), Ok(Rebuilt::Block(BLOCK_170.to_vec())));
}

#[test]
fn hashes_are_those_of_their_authors() {
    let hash = cbrelay::sha256d(b"abc");
    assert_eq!(hash.bytes[..4], [0x4f, 0x8b, 0x42, 0xc2]);
    let key = Key { k0: 0x0706_0504_0302_0100, k1: 0x0f0e_0d0c_0b0a_0908 };
    let bytes: Vec<u8> = (0..15).collect();
    assert_eq!(cbrelay::sip24(&key, &bytes), 0xa129_ca61_49be_45e5);
    assert_eq!(cbrelay::merkle_root(&[hash, hash]).unwrap().1, true);
    assert_eq!(cbrelay::merkle_root(&[]).unwrap_err().to_string(), "F9 Empty");
}

#[test]
fn a_stream_is_cut_into_messages() {
    let mut stream = cbrelay::message_write("ping", &7u64.to_le_bytes()).unwrap();
    stream.extend(cbrelay::message_write("verack", &[]).unwrap());
    let first = cbrelay::envelope_at(&stream).unwrap().unwrap();
    assert_eq!((first.command, first.fault), (&b"ping\0\0\0\0\0\0\0\0"[..], None));
    assert_eq!(cbrelay::nonce_read(first.payload), Ok(7));
    let second = cbrelay::envelope_at(first.rest).unwrap().unwrap();
    assert_eq!((second.payload.len(), second.rest.len()), (0, 0));
    assert_eq!(cbrelay::envelope_at(&stream[..23]), Ok(None));
    stream[0] ^= 1;
    assert_eq!(cbrelay::envelope_at(&stream).unwrap_err().to_string(), "F12 BadMagic");
}
