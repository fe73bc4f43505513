//! The memory that a call is lent.

/// A window of physical memory: lent bytes, and the address of the first of them.
///
/// An empty window has no bytes; wherever it starts, nothing is found in it and it overlaps nothing.
///
/// Every value is legal to give; [`Refusal::Window`](crate::Refusal::Window) and
/// [`Refusal::Overlap`](crate::Refusal::Overlap) say what is refused.
#[derive(Debug, Default, PartialEq, Eq, Hash)]
pub struct Window<'a> {
    /// The physical address of the first byte.
    pub start: u64,
    /// The bytes.
    pub bytes: &'a mut [u8],
}

impl<'a> Window<'a> {
    /// The window with these bytes from an address on.
    pub fn new(start: u64, bytes: &'a mut [u8]) -> Self {
        Window { start, bytes }
    }

    /// An empty window, at 0.
    pub fn empty() -> Self {
        Window::default()
    }
}

/// The two windows that hold all tables and all interrupt files; which of them holds what doesn't
/// matter.
///
/// They may touch, in either order, but no address may lie in both. Bytes of a window are given back
/// with its borrow, and may be looked at in between: `memory.first.bytes`.
///
/// ```
/// use yasmurekh::{take, Memory, Refusal, Window};
///
/// let (mut tables, mut files) = ([0; 4096], [0xFF; 4096]);
/// let mut memory = Memory {
///     first: Window::new(0x1000_0000, &mut tables),
///     second: Window::new(0x4000_0000, &mut files),
/// };
/// assert_eq!(take(&mut memory, 0x4000_0200, 9), Ok(true));
/// assert_eq!(take(&mut memory, 0x1000_0200, 9), Ok(false));
/// assert_eq!(memory.second.bytes[0x201], 0b1111_1101);
///
/// memory.second.start = 0x1000_0000;
/// assert_eq!(take(&mut memory, 0x1000_0200, 9), Err(Refusal::Overlap));
/// ```
#[derive(Debug, Default, PartialEq, Eq, Hash)]
pub struct Memory<'a> {
    /// One window.
    pub first: Window<'a>,
    /// The other one.
    pub second: Window<'a>,
}

impl<'a> Memory<'a> {
    /// The memory of one window: these bytes from an address on. The second window is empty, at 0.
    pub fn one(start: u64, bytes: &'a mut [u8]) -> Self {
        Memory {
            first: Window::new(start, bytes),
            second: Window::empty(),
        }
    }
}
