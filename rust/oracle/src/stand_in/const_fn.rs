//! Stand-in for `src/const_fn.rs`.

/// A `for` loop over a range that may stand in a `const fn`.
macro_rules! const_for {
    ($at:ident in $range:expr => $body:block) => {{
        let std::ops::Range { start, end } = $range;
        let mut $at = start;
        while $at < end {
            $body;
            $at += 1;
        }
    }};
}

pub(crate) use const_for;
