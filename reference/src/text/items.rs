//! Bytes as ITEMs: hexadecimal digits, and `N*` before digits that repeat.

use crate::hex;

/// Equal bytes in a row that are worth an item of their own.
const LEAST_RUN: usize = 8;
/// Bytes after which digits go on in another item.
const ITEM_BYTES: usize = 32;
/// Characters after which items go on in another line.
const LINE_WIDTH: usize = 64;
/// What one item may stand for: any record, and 65,537 of the shortest.
const MAX_ITEM_BYTES: usize = 1 << 20;

pub fn parse(items: &[&str]) -> Result<Vec<u8>, String> {
    let parts: Vec<Vec<u8>> = items
        .iter()
        .map(|item| parse_item(item).ok_or(format!("not bytes: {item}")))
        .collect::<Result<_, _>>()?;
    Ok(parts.concat())
}

fn parse_item(item: &str) -> Option<Vec<u8>> {
    let Some((count, digits)) = item.split_once('*') else {
        return hex::decode(item);
    };
    let count: usize = count.parse().ok()?;
    let bytes = hex::decode(digits)?;
    let size = bytes.len().checked_mul(count)?;
    (size <= MAX_ITEM_BYTES).then(|| bytes.repeat(count))
}

/// The bytes as items, in lines of moderate width.
pub fn lines(bytes: &[u8]) -> Vec<String> {
    let mut lines: Vec<String> = Vec::new();
    for item in items(bytes) {
        match lines.last_mut() {
            Some(line) if line.len() + item.len() < LINE_WIDTH => {
                line.push(' ');
                line.push_str(&item);
            }
            _ => lines.push(item),
        }
    }
    lines
}

fn items(bytes: &[u8]) -> Vec<String> {
    let mut items = Vec::new();
    let mut plain = Vec::new();
    for run in bytes.chunk_by(|one, next| one == next) {
        if run.len() < LEAST_RUN {
            plain.extend(run);
        } else {
            items.extend(plain_items(&plain));
            plain.clear();
            items.push(format!("{}*{:02x}", run.len(), run[0]));
        }
    }
    items.extend(plain_items(&plain));
    items
}

fn plain_items(bytes: &[u8]) -> impl Iterator<Item = String> + '_ {
    bytes.chunks(ITEM_BYTES).map(hex::encode)
}
