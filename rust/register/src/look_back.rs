//! What a look-back answers.
use crate::settings::ROW_WORDS;
use crate::{OPEN, Rows};

/// The three numbers of a look-back.
#[derive(Clone, Copy, Debug, PartialEq, Eq, Hash)]
pub struct Counts {
    /// Rows given.
    pub rows: u32,
    /// Index pages read.
    pub pages: u32,
    /// Blocks listed.
    pub blocks: u32,
}

/// What stood at a second, and what was read to know it.
///
/// The words lie in the two buffers that the caller lent (`W` is then `&[u32]`), or in its own (`Vec<u32>`, from an
/// `OwnedRegister`).
///
/// ```
/// use register::{Register, Row, Settings};
///
/// let settings = Settings::new(4, 2, 8, 16)?;
/// let mut store = vec![0; settings.words()];
/// let mut register = Register::start(&mut store, settings)?;
/// register.set(10, 3, -25)?;
/// register.set(11, 5, 140)?;
///
/// let (mut rows, mut list) = (vec![0; settings.row_words()], vec![0; settings.list_words()]);
/// let told = register.look_back(11, &mut rows, &mut list)?;
/// assert!(told.rows().eq([Row { tag: 3, reading: -25, since: 10 }, Row { tag: 5, reading: 140, since: 11 }]));
/// assert_eq!(told.blocks(), [1]);
/// assert_eq!(told.pages(), [Some(0), None, None]);
/// for row in told.rows() {
///     println!("tag {} had {} daN since {}", row.tag, row.reading, row.since);
/// }
/// # Ok::<(), register::Refusal>(())
/// ```
#[derive(Clone, Copy, Debug, PartialEq, Eq)]
#[must_use]
pub struct LookBack<W> {
    rows: W,
    list: W,
    counts: Counts,
    pages: [u32; 3],
}

impl<W> LookBack<W> {
    /// An answer whose buffers are cut, by `cut`, to as many words as the register filled.
    pub(crate) fn new(rows: W, list: W, answer: [u32; 6], cut: impl Fn(W, usize) -> W) -> LookBack<W> {
        let [row_count, page_count, block_count, pages @ ..] = answer;
        let counts = Counts { rows: row_count, pages: page_count, blocks: block_count };
        let (rows, list) = (cut(rows, ROW_WORDS * row_count as usize), cut(list, block_count as usize));
        LookBack { rows, list, counts, pages }
    }

    /// The numbers of rows, of pages read and of blocks listed.
    #[must_use]
    pub fn counts(&self) -> Counts {
        self.counts
    }

    /// For each level of the index, the lowest first, the page that was passed, counted from 0 in its level.
    #[must_use]
    pub fn pages(&self) -> [Option<u32>; 3] {
        self.pages.map(|page| (page != OPEN).then_some(page))
    }
}

impl<W: AsRef<[u32]>> LookBack<W> {
    /// The rows, in the order in which the register found them; no tag comes twice after a history of calls.
    pub fn rows(&self) -> Rows<'_> {
        Rows::of(self.rows.as_ref())
    }

    /// The reading list: the numbers, from 1, of the blocks that were read, in their order.
    #[must_use]
    pub fn blocks(&self) -> &[u32] {
        self.list.as_ref()
    }
}
