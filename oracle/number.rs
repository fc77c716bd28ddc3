//! Numbers that cross the C boundary. Both sides hold them as `i128`, which has room for every one.

/// The C type of an input or a result, and the numbers it holds.
#[derive(Clone, Copy)]
pub struct Kind {
    pub c_name: &'static str,
    pub least: i128,
    pub greatest: i128,
}

impl Kind {
    pub fn holds(&self, number: i128) -> bool {
        self.least <= number && number <= self.greatest
    }
}

pub trait Number: Copy {
    const KIND: Kind;
    /// The number itself; `KIND` must hold it.
    fn narrow(wide: i128) -> Self;
    fn wide(self) -> i128;
}

macro_rules! numbers {
    ($($number:ty, $c_name:literal;)*) => {$(
        impl Number for $number {
            const KIND: Kind =
                Kind { c_name: $c_name, least: <$number>::MIN as i128, greatest: <$number>::MAX as i128 };
            fn narrow(wide: i128) -> Self {
                <$number>::try_from(wide).expect("an input of another type was drawn")
            }
            fn wide(self) -> i128 {
                self as i128
            }
        }
    )*};
}

numbers! {
    u8, "uint8_t";
    u32, "uint32_t";
    u64, "uint64_t";
    i32, "int32_t";
    i64, "int64_t";
}

/// Where the port writes one result. It starts as a pattern, with more of it before and after, so that a
/// result left unwritten shows, and so does a write next to it.
pub struct Place([u64; 3]);

const UNWRITTEN: u64 = 0xA5A5_A5A5_A5A5_A5A5;

impl Place {
    pub fn new() -> Place {
        Place([UNWRITTEN; 3])
    }

    pub fn address<N: Number>(&mut self) -> *mut N {
        self.0.as_mut_ptr().wrapping_add(1).cast()
    }

    pub fn value<N: Number>(&mut self) -> i128 {
        // SAFETY: the address is that of eight bytes of our own, aligned for every number here
        unsafe { self.address::<N>().read() }.wide()
    }

    /// Whether any byte but those of the result has changed.
    pub fn spilled<N: Number>(&self) -> bool {
        let own_bits = 8 * std::mem::size_of::<N>() as u32;
        let rest = u64::MAX.checked_shl(own_bits).unwrap_or(0);
        let [before, at, after] = self.0;
        before != UNWRITTEN || after != UNWRITTEN || at & rest != UNWRITTEN & rest
    }
}
