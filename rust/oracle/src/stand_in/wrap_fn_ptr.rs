//! `wrap_fn_ptr!` declares, inside `src/refmvs.rs`, a module with a type `Fn` for each function
//! that the decoder may have in assembly. The real one keeps the `extern "C"` pointer that it is
//! given. A panic may not leave such a function, so this one hands out a plain function instead,
//! which calls the private `load_tmvs_rust`, `save_tmvs_rust` or `splat_mv_rust` directly.

macro_rules! wrap_fn_ptr {
    (
        $vis:vis unsafe extern "C" fn $name:ident(
            $($arg:ident: $ty:ty),* $(,)?
        ) -> ()
    ) => {
        $vis mod $name {
            use super::*;

            pub struct Fn(());

            impl Fn {
                pub const fn new(_extern_c: unsafe extern "C" fn($($ty),*)) -> Self {
                    Self(())
                }

                pub fn get(&self) -> unsafe fn($($ty),*) {
                    plain
                }
            }

            crate::stand_in::wrap_fn_ptr::plain_fn!($name);
        }
    };
}

/// `plain`, for each of the three names. Its arguments are those of the `extern "C"` function, and
/// so is its safety: it must be called by `Fn::call`.
macro_rules! plain_fn {
    (load_tmvs) => {
        /// The private `mv_projection`, which loading and searching use.
        pub fn project(mv: Mv, num: i32, den: i32) -> Mv {
            mv_projection(mv, num, den)
        }

        unsafe fn plain(
            rf: &AsmRefMvsFrame,
            tile_row_idx: i32,
            col_start8: i32,
            col_end8: i32,
            row_start8: i32,
            row_end8: i32,
            rp_proj: *const FFISafe<DisjointMut<AlignedVec64<RefMvsTemporalBlock>>>,
            rp_ref: *const FFISafe<[Option<DisjointMutArcSlice<RefMvsTemporalBlock>>; 7]>,
        ) {
            // SAFETY: `Fn::call` made both with `FFISafe::new`.
            let (rp_proj, rp_ref) = unsafe { (FFISafe::get(rp_proj), FFISafe::get(rp_ref)) };
            load_tmvs_rust(
                rf,
                tile_row_idx,
                col_start8,
                col_end8,
                row_start8,
                row_end8,
                rp_proj,
                rp_ref,
            )
        }
    };
    (save_tmvs) => {
        unsafe fn plain(
            _rp: *mut RefMvsTemporalBlock,
            stride: isize,
            _rr: &[*const RefMvsBlock; 31],
            ref_sign: &[u8; 7],
            col_end8: i32,
            row_end8: i32,
            col_start8: i32,
            row_start8: i32,
            r: *const FFISafe<DisjointMut<AlignedVec64<RefMvsBlock>>>,
            ri: &[usize; 31],
            rp: *const FFISafe<DisjointMutArcSlice<RefMvsTemporalBlock>>,
        ) {
            // SAFETY: `Fn::call` made both with `FFISafe::new`.
            let (r, rp) = unsafe { (FFISafe::get(r), FFISafe::get(rp)) };
            save_tmvs_rust(
                stride as usize,
                ref_sign,
                col_end8 as usize,
                row_end8 as usize,
                col_start8 as usize,
                row_start8 as usize,
                r,
                ri,
                &rp.inner,
            )
        }
    };
    (splat_mv) => {
        unsafe fn plain(
            rr: *mut *mut RefMvsBlock,
            rmv: &Align16<RefMvsBlock>,
            bx4: i32,
            bw4: i32,
            bh4: i32,
        ) {
            // SAFETY: `Fn::call` passes `bh4` pointers.
            let rows = unsafe { slice::from_raw_parts(rr, bh4 as usize) };
            let rows = rows.iter().map(|row| {
                // The file's own function would write through the null of an absent row.
                assert!(!row.is_null(), "a row of the table is absent");
                // SAFETY: `Fn::call` has `bw4` records borrowed there.
                unsafe { slice::from_raw_parts_mut(row.add(bx4 as usize), bw4 as usize) }
            });
            splat_mv_rust(rows, rmv)
        }
    };
}

pub(crate) use plain_fn;
pub(crate) use wrap_fn_ptr;

#[cfg(test)]
mod tests {
    use crate::outcome::outcome_of;
    use crate::src::align::Align16;
    use crate::src::disjoint_mut::DisjointMutArcSlice;
    use crate::src::internal::Bxy;
    use crate::src::levels::BlockSize;
    use crate::src::levels::Mv;
    use crate::src::refmvs::rav1d_refmvs_tile_sbrow_init;
    use crate::src::refmvs::Rav1dRefmvsDSPContext;
    use crate::src::refmvs::RefMvsBlock;
    use crate::src::refmvs::RefMvsFrame;
    use crate::src::refmvs::RefMvsMvPair;
    use crate::src::refmvs::RefMvsTemporalBlock;
    use crate::Outcome;
    use zerocopy::FromZeroes;

    const STRIDE: usize = 16;

    /// A frame of 64 x 64, with one reference a step away.
    fn frame() -> RefMvsFrame {
        let mut rf = RefMvsFrame {
            iw4: 16,
            ih4: 16,
            iw8: 8,
            ih8: 8,
            sbsz: 16,
            mfmv_sign: [1; 7],
            mfmv_ref2cur: [1, 0, 0],
            mfmv_ref2ref: [[1; 7], [0; 7], [0; 7]],
            n_mfmvs: 1,
            n_blocks: STRIDE as u32,
            rp_stride: STRIDE as u32,
            n_tile_threads: 1,
            n_frame_threads: 1,
            ..Default::default()
        };
        rf.rp_proj.resize(16 * STRIDE, Default::default());
        rf.r.resize(70 * STRIDE + 1, FromZeroes::new_zeroed());
        rf
    }

    fn field() -> Vec<RefMvsTemporalBlock> {
        vec![Default::default(); 8 * STRIDE]
    }

    #[test]
    fn load_projects_and_its_panic_comes_back() {
        let moved = RefMvsTemporalBlock {
            mv: Mv { y: 0, x: 64 },
            r#ref: 1,
        };
        let mut field = field();
        field[2 * STRIDE + 3] = moved;
        let mut fields = [const { None }; 7];
        fields[0] = Some(field.into_iter().collect());
        let rf = frame();
        let load = |row_end| {
            let dsp = Rav1dRefmvsDSPContext::default();
            outcome_of(|| dsp.load_tmvs.call(&rf, &None, &fields, 0, 0, 8, 0, row_end))
        };
        assert_eq!(load(8), Outcome::Gave(()));
        assert!(*rf.rp_proj.index(2 * STRIDE + 2) == moved);
        assert_eq!(load(17), Outcome::Panicked);
    }

    /// Document 01 says that the Rust's clearing runs past its 16 rows. The supplied text takes each
    /// row modulo 16: rows 8..24 of a frame of 64 x 256 clear all 16 buffer rows and no more.
    #[test]
    fn clearing_takes_rows_modulo_16() {
        let kept = RefMvsTemporalBlock {
            mv: Mv { y: 7, x: 7 },
            r#ref: 3,
        };
        let mut rf = frame();
        rf.ih4 = 64;
        rf.ih8 = 32;
        rf.n_mfmvs = 0;
        rf.rp_proj = Default::default();
        rf.rp_proj.resize(17 * STRIDE, kept);
        let dsp = Rav1dRefmvsDSPContext::default();
        let fields = [const { None }; 7];
        let load = || dsp.load_tmvs.call(&rf, &None, &fields, 0, 0, 8, 8, 24);
        assert_eq!(outcome_of(load), Outcome::Gave(()));
        for at in 0..17 * STRIDE {
            let cleared = at < 16 * STRIDE && at % STRIDE < 8;
            let mv = if cleared { Mv::INVALID } else { kept.mv };
            assert!(*rf.rp_proj.index(at) == RefMvsTemporalBlock { mv, ..kept });
        }
    }

    #[test]
    fn splat_is_saved_and_its_absent_row_is_told() {
        let mv = Mv { y: 5, x: -6 };
        let record = RefMvsBlock {
            mv: RefMvsMvPair { mv: [mv, Mv::ZERO] },
            r#ref: [1, -1].into(),
            bs: BlockSize::Bs16x16,
            mf: 0,
        };
        let rf = frame();
        let rt = rav1d_refmvs_tile_sbrow_init(&rf, 0, 16, 0, 16, 0, 0, 1);
        let dsp = Rav1dRefmvsDSPContext::default();
        let splat = |y| {
            let origin = Bxy { x: 0, y };
            outcome_of(|| dsp.splat_mv.call(&rf, &rt, &Align16(record), origin, 4, 4))
        };
        assert_eq!(splat(0), Outcome::Gave(()));
        assert_eq!(splat(20), Outcome::Panicked);

        let saved: DisjointMutArcSlice<_> = field().into_iter().collect();
        dsp.save_tmvs
            .call(&rt, &rf, &Some(saved.clone()), 0, 2, 0, 2);
        for at in [0, 1, STRIDE, STRIDE + 1] {
            assert!(*saved.inner.index(at) == RefMvsTemporalBlock { mv, r#ref: 1 });
        }
        assert!(*saved.inner.index(2) == RefMvsTemporalBlock::default());
    }
}
