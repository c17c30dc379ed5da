//! The shortest script that still shows a difference.
use crate::script::{Record, RECORD};

const SHORT: usize = 40;

/// `shows` answers how many records it takes to show the difference, if the script shows one.
pub fn shrink(script: &[u8], shows: impl Fn(&[u8]) -> Option<usize>) -> Vec<u8> {
    let mut kept = script.to_vec();
    let keep = |kept: &mut Vec<u8>, tried: Vec<u8>| match shows(&tried) {
        Some(records) => {
            *kept = tried;
            kept.truncate(records * RECORD);
            true
        }
        None => false,
    };
    keep(&mut kept, script.to_vec());
    // larger pieces first; at the size of one record until nothing more goes
    let mut piece = (kept.len() / RECORD / 2).max(1);
    while drop_pieces(&mut kept, piece, &keep) || piece > 1 || drop_pair(&mut kept, &keep) {
        piece = (piece / 2).max(1);
    }
    for at in 0..kept.len() / RECORD {
        let tried = tidied(&kept, at);
        keep(&mut kept, tried);
    }
    kept
}

/// Drops every piece that can go; whether one could.
fn drop_pieces(kept: &mut Vec<u8>, piece: usize, keep: &impl Fn(&mut Vec<u8>, Vec<u8>) -> bool) -> bool {
    let (mut dropped, mut at) = (false, 0);
    while at < kept.len().div_ceil(RECORD) {
        let tried = without(kept, at, piece);
        if keep(kept, tried) {
            dropped = true;
        } else {
            at += piece;
        }
    }
    dropped
}

/// Drops two records that only go together, such as a block and its wake. Tried on short scripts only.
fn drop_pair(kept: &mut Vec<u8>, keep: &impl Fn(&mut Vec<u8>, Vec<u8>) -> bool) -> bool {
    let records = kept.len().div_ceil(RECORD);
    if records > SHORT {
        return false;
    }
    let pairs = (0..records).flat_map(|j| (0..j).map(move |i| (i, j)));
    pairs.into_iter().any(|(i, j)| {
        let tried = without(&without(kept, j, 1), i, 1);
        keep(kept, tried)
    })
}

fn without(script: &[u8], at: usize, records: usize) -> Vec<u8> {
    let end = ((at + records) * RECORD).min(script.len());
    [&script[..at * RECORD], &script[end..]].concat()
}

/// The script with the unused fields of one record cleared.
fn tidied(script: &[u8], at: usize) -> Vec<u8> {
    let (start, end) = (at * RECORD, (at + 1) * RECORD);
    let mut tidy = script.to_vec();
    if let Some(r) = script.get(start..end).and_then(Record::read) {
        tidy[start..end].copy_from_slice(&r.filled(Record::default()).bytes());
    }
    tidy
}
