//! What a window answers.
use crate::settings::ROW_WORDS;
use crate::{Row, Rows};

/// What stood at some second of a window, such as a closure: each tag once, in ascending order, with the reading and
/// since of its latest standing there. A row does not tell whether the tag still stood at the window's last second, nor
/// when it ended; since may lie before the first.
///
/// The words lie in the buffer that the caller lent (`W` is then `&[u32]`), or in its own (`Vec<u32>`, from an
/// `OwnedRegister`).
///
/// ```
/// use register::{Refusal, Register, Row, Settings};
///
/// let settings = Settings::new(4, 2, 8, 16)?;
/// let mut store = vec![0; settings.words()];
/// let mut register = Register::start(&mut store, settings)?;
/// register.set(10, 5, 140)?;
/// register.set(11, 3, -25)?;
/// register.update(14, 3, -30)?;
/// register.clear(14, 5)?;
/// register.clear(20, 3)?;
///
/// let mut rows = vec![0; settings.row_words()];
/// let window = register.window(12, 19, &mut rows)?; // from 12 to 19, both included
/// assert!(window.rows().eq([Row { tag: 3, reading: -30, since: 14 }, Row { tag: 5, reading: 140, since: 10 }]));
/// assert_eq!(window.row(5).map(|row| row.reading), Some(140));
/// for row in window.rows() {
///     println!("tag {} had {} daN since {}", row.tag, row.reading, row.since);
/// }
///
/// assert_eq!(register.window(19, 12, &mut rows), Err(Refusal::Reversed));
/// assert_eq!(register.window(12, 21, &mut rows), Err(Refusal::Late));
/// # Ok::<(), Refusal>(())
/// ```
#[derive(Clone, Copy, Debug, PartialEq, Eq)]
#[must_use]
pub struct Window<W> {
    rows: W,
}

impl<W> Window<W> {
    /// An answer whose buffer is cut, by `cut`, to as many words as the register filled.
    pub(crate) fn new(rows: W, answer: [u32; 1], cut: impl Fn(W, usize) -> W) -> Window<W> {
        let [row_count] = answer;
        Window { rows: cut(rows, ROW_WORDS * row_count as usize) }
    }
}

impl<W: AsRef<[u32]>> Window<W> {
    /// The rows, in ascending order of their tags, no tag twice.
    pub fn rows(&self) -> Rows<'_> {
        Rows::of(self.rows.as_ref())
    }

    /// The row of a tag; none if it did not stand in the window.
    #[must_use]
    pub fn row(&self, tag: u32) -> Option<Row> {
        let (words, _) = self.rows.as_ref().as_chunks::<ROW_WORDS>();
        let at = words.binary_search_by_key(&tag, |&[tag, ..]| tag).ok()?;
        self.rows().nth(at)
    }
}
