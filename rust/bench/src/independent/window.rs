//! A window: each tag that stood at some second of it, once, with what its latest standing there says.
use super::head::Head;
use super::parts::{BLOCK_HEAD, Blocks, CLOSED, OPENED, Payload, RECORD};
use crate::settings::ROW;
use crate::{OPEN, Refusal};

pub fn window(store: &[u32], first: u32, last: u32, rows: &mut [u32]) -> Result<u32, Refusal> {
    let head = Head::read(store)?;
    if first == OPEN || last == OPEN {
        return Err(Refusal::TIME_OPEN);
    }
    if last < first {
        return Err(Refusal::REVERSED);
    }
    if last > head.clock {
        return Err(Refusal::LATE);
    }
    if rows.len() < head.settings.row_words() {
        return Err(Refusal::SHORT_BUFFER);
    }
    let Some(latest) = latest(&head, store, first, last) else {
        rows.fill(0);
        return Err(Refusal::UNSOUND);
    };
    Ok(write(&latest, rows))
}

/// A tag's standing that is the latest so far: when its record began, and what it says.
#[derive(Clone, Copy)]
struct Standing {
    from: u32,
    payload: Payload,
}

/// For each tag its latest standing in the window; nothing if a record that stood there has a tag of D or more.
fn latest(head: &Head, store: &[u32], first: u32, last: u32) -> Option<Vec<Option<Standing>>> {
    let before = head.settings.words() - head.settings.blocks as usize * head.settings.block_words();
    let blocks = Blocks { words: &store[before..], block_words: head.settings.block_words() };
    let mut latest = vec![None; head.settings.tags as usize];
    for n in 1..=head.opened {
        let block = blocks.get(n);
        if block[OPENED] <= last && block[CLOSED] > first {
            note(block, first, last, &mut latest)?;
        }
    }
    Some(latest)
}

/// Takes notice of a block's records that stood in the window, all slots in order. Places only grow, so a record that
/// began no earlier than the one known is the later of the two.
fn note(block: &[u32], first: u32, last: u32, latest: &mut [Option<Standing>]) -> Option<()> {
    for record in block[BLOCK_HEAD..].as_chunks::<RECORD>().0 {
        let [tag, _, from, to, _] = *record;
        if from.max(first) < to.min(last + 1) {
            let known = latest.get_mut(tag as usize)?;
            if known.is_none_or(|known| known.from <= from) {
                *known = Some(Standing { from, payload: Payload::of(record) });
            }
        }
    }
    Some(())
}

/// Writes the rows in the order of their tags, and says how many they are.
fn write(latest: &[Option<Standing>], rows: &mut [u32]) -> u32 {
    let stood = (0..).zip(latest).filter_map(|(tag, standing)| standing.map(|standing| (tag, standing.payload)));
    let mut number = 0;
    for (row, (tag, Payload { reading, since })) in rows.as_chunks_mut::<ROW>().0.iter_mut().zip(stood) {
        *row = [tag, reading, since];
        number += 1;
    }
    number
}
