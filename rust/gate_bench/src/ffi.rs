//! The archive's functions, as include/gate_bench.h declares them, each with a safe one that takes slices. All of this
//! crate's `unsafe` is here.
//!
//! What the header leaves to the caller Rust's own rules give: a slice is as long as it says, its pointer is aligned and not
//! null, and nothing lent as `&mut` overlaps anything else or is touched by another thread.
#![allow(clippy::too_many_arguments)]

mod declared {
    extern "C" {
        pub fn gate_bench_x_apply(reals: *mut f64, reals_len: usize, imags: *mut f64, imags_len: usize, n: u32, target: u32,
            ones: u32) -> u32;
        pub fn gate_bench_y_apply(reals: *mut f64, reals_len: usize, imags: *mut f64, imags_len: usize, n: u32, target: u32,
            ones: u32) -> u32;
        pub fn gate_bench_z_apply(reals: *mut f64, reals_len: usize, imags: *mut f64, imags_len: usize, n: u32, target: u32,
            ones: u32) -> u32;
        pub fn gate_bench_h_apply(reals: *mut f64, reals_len: usize, imags: *mut f64, imags_len: usize, n: u32, target: u32,
            ones: u32) -> u32;
        pub fn gate_bench_p_apply(reals: *mut f64, reals_len: usize, imags: *mut f64, imags_len: usize, n: u32, target: u32, ones: u32,
            cosine: f64, sine: f64) -> u32;
        pub fn gate_bench_rx_apply(reals: *mut f64, reals_len: usize, imags: *mut f64, imags_len: usize, n: u32, target: u32, ones: u32,
            cosine: f64, sine: f64) -> u32;
        pub fn gate_bench_ry_apply(reals: *mut f64, reals_len: usize, imags: *mut f64, imags_len: usize, n: u32, target: u32, ones: u32,
            cosine: f64, sine: f64) -> u32;
        pub fn gate_bench_rz_apply(reals: *mut f64, reals_len: usize, imags: *mut f64, imags_len: usize, n: u32, target: u32, ones: u32,
            cosine: f64, sine: f64) -> u32;
        pub fn gate_bench_u_apply(reals: *mut f64, reals_len: usize, imags: *mut f64, imags_len: usize, n: u32, target: u32, ones: u32,
            ct: f64, st: f64, cl: f64, sl: f64, cpl: f64, spl: f64, cp: f64, sp: f64) -> u32;
        pub fn gate_bench_swap_apply(reals: *mut f64, reals_len: usize, imags: *mut f64, imags_len: usize, n: u32, t0: u32, t1: u32) -> u32;
        pub fn gate_bench_bit_flip_noise_apply(reals: *mut f64, reals_len: usize, imags: *mut f64, imags_len: usize, n: u32, target: u32,
            prob: f64, draw: f64) -> u32;
        pub fn gate_bench_measure_qubit(reals: *mut f64, reals_len: usize, imags: *mut f64, imags_len: usize, n: u32, target: u32,
            outcome: u8, reset: u8) -> u32;
        pub fn gate_bench_slow_x_apply(sr: *const f64, sr_len: usize, si: *const f64, si_len: usize, reals: *mut f64,
            reals_len: usize, imags: *mut f64, imags_len: usize, n: u32, target: u32, ones: u32) -> u32;
        pub fn gate_bench_slow_y_apply(sr: *const f64, sr_len: usize, si: *const f64, si_len: usize, reals: *mut f64,
            reals_len: usize, imags: *mut f64, imags_len: usize, n: u32, target: u32, ones: u32) -> u32;
        pub fn gate_bench_slow_z_apply(sr: *const f64, sr_len: usize, si: *const f64, si_len: usize, reals: *mut f64,
            reals_len: usize, imags: *mut f64, imags_len: usize, n: u32, target: u32, ones: u32) -> u32;
        pub fn gate_bench_slow_h_apply(sr: *const f64, sr_len: usize, si: *const f64, si_len: usize, reals: *mut f64,
            reals_len: usize, imags: *mut f64, imags_len: usize, n: u32, target: u32, ones: u32) -> u32;
        pub fn gate_bench_slow_p_apply(sr: *const f64, sr_len: usize, si: *const f64, si_len: usize, reals: *mut f64,
            reals_len: usize, imags: *mut f64, imags_len: usize, n: u32, target: u32, ones: u32, cosine: f64,
            sine: f64) -> u32;
        pub fn gate_bench_slow_rx_apply(sr: *const f64, sr_len: usize, si: *const f64, si_len: usize, reals: *mut f64,
            reals_len: usize, imags: *mut f64, imags_len: usize, n: u32, target: u32, ones: u32, cosine: f64,
            sine: f64) -> u32;
        pub fn gate_bench_slow_ry_apply(sr: *const f64, sr_len: usize, si: *const f64, si_len: usize, reals: *mut f64,
            reals_len: usize, imags: *mut f64, imags_len: usize, n: u32, target: u32, ones: u32, cosine: f64,
            sine: f64) -> u32;
        pub fn gate_bench_slow_rz_apply(sr: *const f64, sr_len: usize, si: *const f64, si_len: usize, reals: *mut f64,
            reals_len: usize, imags: *mut f64, imags_len: usize, n: u32, target: u32, ones: u32, cosine: f64,
            sine: f64) -> u32;
        pub fn gate_bench_slow_u_apply(sr: *const f64, sr_len: usize, si: *const f64, si_len: usize, reals: *mut f64,
            reals_len: usize, imags: *mut f64, imags_len: usize, n: u32, target: u32, ones: u32, ct: f64, st: f64, cl: f64,
            sl: f64, cpl: f64, spl: f64, cp: f64, sp: f64) -> u32;
        pub fn gate_bench_slow_swap_apply(sr: *const f64, sr_len: usize, si: *const f64, si_len: usize, reals: *mut f64,
            reals_len: usize, imags: *mut f64, imags_len: usize, n: u32, t0: u32, t1: u32) -> u32;
        pub fn gate_bench_slow_bit_flip_noise_apply(sr: *const f64, sr_len: usize, si: *const f64, si_len: usize,
            reals: *mut f64, reals_len: usize, imags: *mut f64, imags_len: usize, n: u32, target: u32, prob: f64,
            draw: f64) -> u32;
        pub fn gate_bench_from_single_qubit_gate(reals: *mut f64, reals_len: usize, imags: *mut f64, imags_len: usize, n: u32, target: u32,
            re00: f64, im00: f64, re01: f64, im01: f64, re10: f64, im10: f64, re11: f64, im11: f64) -> u32;
        pub fn gate_bench_conj_t(reals: *mut f64, reals_len: usize, imags: *mut f64, imags_len: usize, n: u32) -> u32;
        pub fn gate_bench_multiply(ar: *const f64, ar_len: usize, ai: *const f64, ai_len: usize, br: *const f64, br_len: usize,
            bi: *const f64, bi_len: usize, reals: *mut f64, reals_len: usize, imags: *mut f64, imags_len: usize, n: u32) -> u32;
        pub fn gate_bench_apply_unitary(ar: *const f64, ar_len: usize, ai: *const f64, ai_len: usize, sr: *const f64, sr_len: usize,
            si: *const f64, si_len: usize, reals: *mut f64, reals_len: usize, imags: *mut f64, imags_len: usize, n: u32) -> u32;
        pub fn gate_bench_start(session: *mut u32, n: u32, number: u32) -> u32;
        pub fn gate_bench_deliver(session: *mut u32, bytes: *const u8, bytes_len: usize, reals: *mut f64, reals_len: usize,
            imags: *mut f64, imags_len: usize) -> u32;
        pub fn gate_bench_feed(session: *mut u32, kept: *mut u32, held: *mut u8, piece: *const u8, piece_len: usize, used: *mut usize,
            reals: *mut f64, reals_len: usize, imags: *mut f64, imags_len: usize) -> u32;
        pub fn gate_bench_read_record(bytes: *const u8, bytes_len: usize, fields: *mut u32, fields_len: usize, numbers: *mut f64,
            numbers_len: usize) -> u32;
        pub fn gate_bench_write_record(fields: *const u32, fields_len: usize, numbers: *const f64, numbers_len: usize, out: *mut u8,
            out_len: usize) -> u32;
        pub fn gate_bench_fused(x: f64, y: f64, z: f64) -> f64;
        pub fn gate_bench_root(x: f64) -> f64;
    }
}

pub fn x_apply(reals: &mut [f64], imags: &mut [f64], n: u32, target: u32, ones: u32) -> u32 {
    unsafe { declared::gate_bench_x_apply(reals.as_mut_ptr(), reals.len(), imags.as_mut_ptr(), imags.len(), n, target, ones) }
}

pub fn y_apply(reals: &mut [f64], imags: &mut [f64], n: u32, target: u32, ones: u32) -> u32 {
    unsafe { declared::gate_bench_y_apply(reals.as_mut_ptr(), reals.len(), imags.as_mut_ptr(), imags.len(), n, target, ones) }
}

pub fn z_apply(reals: &mut [f64], imags: &mut [f64], n: u32, target: u32, ones: u32) -> u32 {
    unsafe { declared::gate_bench_z_apply(reals.as_mut_ptr(), reals.len(), imags.as_mut_ptr(), imags.len(), n, target, ones) }
}

pub fn h_apply(reals: &mut [f64], imags: &mut [f64], n: u32, target: u32, ones: u32) -> u32 {
    unsafe { declared::gate_bench_h_apply(reals.as_mut_ptr(), reals.len(), imags.as_mut_ptr(), imags.len(), n, target, ones) }
}

pub fn p_apply(reals: &mut [f64], imags: &mut [f64], n: u32, target: u32, ones: u32, cosine: f64, sine: f64) -> u32 {
    unsafe { declared::gate_bench_p_apply(reals.as_mut_ptr(), reals.len(), imags.as_mut_ptr(), imags.len(), n, target, ones, cosine, sine) }
}

pub fn rx_apply(reals: &mut [f64], imags: &mut [f64], n: u32, target: u32, ones: u32, cosine: f64, sine: f64) -> u32 {
    unsafe { declared::gate_bench_rx_apply(reals.as_mut_ptr(), reals.len(), imags.as_mut_ptr(), imags.len(), n, target, ones, cosine,
        sine) }
}

pub fn ry_apply(reals: &mut [f64], imags: &mut [f64], n: u32, target: u32, ones: u32, cosine: f64, sine: f64) -> u32 {
    unsafe { declared::gate_bench_ry_apply(reals.as_mut_ptr(), reals.len(), imags.as_mut_ptr(), imags.len(), n, target, ones, cosine,
        sine) }
}

pub fn rz_apply(reals: &mut [f64], imags: &mut [f64], n: u32, target: u32, ones: u32, cosine: f64, sine: f64) -> u32 {
    unsafe { declared::gate_bench_rz_apply(reals.as_mut_ptr(), reals.len(), imags.as_mut_ptr(), imags.len(), n, target, ones, cosine,
        sine) }
}

pub fn u_apply(reals: &mut [f64], imags: &mut [f64], n: u32, target: u32, ones: u32, ct: f64, st: f64, cl: f64, sl: f64, cpl: f64, spl: f64,
    cp: f64, sp: f64) -> u32 {
    unsafe { declared::gate_bench_u_apply(reals.as_mut_ptr(), reals.len(), imags.as_mut_ptr(), imags.len(), n, target, ones, ct, st, cl, sl,
        cpl, spl, cp, sp) }
}

pub fn swap_apply(reals: &mut [f64], imags: &mut [f64], n: u32, t0: u32, t1: u32) -> u32 {
    unsafe { declared::gate_bench_swap_apply(reals.as_mut_ptr(), reals.len(), imags.as_mut_ptr(), imags.len(), n, t0, t1) }
}

pub fn bit_flip_noise_apply(reals: &mut [f64], imags: &mut [f64], n: u32, target: u32, prob: f64, draw: f64) -> u32 {
    unsafe { declared::gate_bench_bit_flip_noise_apply(reals.as_mut_ptr(), reals.len(), imags.as_mut_ptr(), imags.len(), n, target, prob,
        draw) }
}

pub fn measure_qubit(reals: &mut [f64], imags: &mut [f64], n: u32, target: u32, outcome: u8, reset: u8) -> u32 {
    unsafe { declared::gate_bench_measure_qubit(reals.as_mut_ptr(), reals.len(), imags.as_mut_ptr(), imags.len(), n, target, outcome,
        reset) }
}

pub fn slow_x_apply(sr: &[f64], si: &[f64], reals: &mut [f64], imags: &mut [f64], n: u32, target: u32, ones: u32) -> u32 {
    unsafe { declared::gate_bench_slow_x_apply(sr.as_ptr(), sr.len(), si.as_ptr(), si.len(), reals.as_mut_ptr(),
        reals.len(), imags.as_mut_ptr(), imags.len(), n, target, ones) }
}

pub fn slow_y_apply(sr: &[f64], si: &[f64], reals: &mut [f64], imags: &mut [f64], n: u32, target: u32, ones: u32) -> u32 {
    unsafe { declared::gate_bench_slow_y_apply(sr.as_ptr(), sr.len(), si.as_ptr(), si.len(), reals.as_mut_ptr(),
        reals.len(), imags.as_mut_ptr(), imags.len(), n, target, ones) }
}

pub fn slow_z_apply(sr: &[f64], si: &[f64], reals: &mut [f64], imags: &mut [f64], n: u32, target: u32, ones: u32) -> u32 {
    unsafe { declared::gate_bench_slow_z_apply(sr.as_ptr(), sr.len(), si.as_ptr(), si.len(), reals.as_mut_ptr(),
        reals.len(), imags.as_mut_ptr(), imags.len(), n, target, ones) }
}

pub fn slow_h_apply(sr: &[f64], si: &[f64], reals: &mut [f64], imags: &mut [f64], n: u32, target: u32, ones: u32) -> u32 {
    unsafe { declared::gate_bench_slow_h_apply(sr.as_ptr(), sr.len(), si.as_ptr(), si.len(), reals.as_mut_ptr(),
        reals.len(), imags.as_mut_ptr(), imags.len(), n, target, ones) }
}

pub fn slow_p_apply(sr: &[f64], si: &[f64], reals: &mut [f64], imags: &mut [f64], n: u32, target: u32, ones: u32,
    cosine: f64, sine: f64) -> u32 {
    unsafe { declared::gate_bench_slow_p_apply(sr.as_ptr(), sr.len(), si.as_ptr(), si.len(), reals.as_mut_ptr(),
        reals.len(), imags.as_mut_ptr(), imags.len(), n, target, ones, cosine, sine) }
}

pub fn slow_rx_apply(sr: &[f64], si: &[f64], reals: &mut [f64], imags: &mut [f64], n: u32, target: u32, ones: u32,
    cosine: f64, sine: f64) -> u32 {
    unsafe { declared::gate_bench_slow_rx_apply(sr.as_ptr(), sr.len(), si.as_ptr(), si.len(), reals.as_mut_ptr(),
        reals.len(), imags.as_mut_ptr(), imags.len(), n, target, ones, cosine, sine) }
}

pub fn slow_ry_apply(sr: &[f64], si: &[f64], reals: &mut [f64], imags: &mut [f64], n: u32, target: u32, ones: u32,
    cosine: f64, sine: f64) -> u32 {
    unsafe { declared::gate_bench_slow_ry_apply(sr.as_ptr(), sr.len(), si.as_ptr(), si.len(), reals.as_mut_ptr(),
        reals.len(), imags.as_mut_ptr(), imags.len(), n, target, ones, cosine, sine) }
}

pub fn slow_rz_apply(sr: &[f64], si: &[f64], reals: &mut [f64], imags: &mut [f64], n: u32, target: u32, ones: u32,
    cosine: f64, sine: f64) -> u32 {
    unsafe { declared::gate_bench_slow_rz_apply(sr.as_ptr(), sr.len(), si.as_ptr(), si.len(), reals.as_mut_ptr(),
        reals.len(), imags.as_mut_ptr(), imags.len(), n, target, ones, cosine, sine) }
}

pub fn slow_u_apply(sr: &[f64], si: &[f64], reals: &mut [f64], imags: &mut [f64], n: u32, target: u32, ones: u32, ct: f64,
    st: f64, cl: f64, sl: f64, cpl: f64, spl: f64, cp: f64, sp: f64) -> u32 {
    unsafe { declared::gate_bench_slow_u_apply(sr.as_ptr(), sr.len(), si.as_ptr(), si.len(), reals.as_mut_ptr(),
        reals.len(), imags.as_mut_ptr(), imags.len(), n, target, ones, ct, st, cl, sl, cpl, spl, cp, sp) }
}

pub fn slow_swap_apply(sr: &[f64], si: &[f64], reals: &mut [f64], imags: &mut [f64], n: u32, t0: u32, t1: u32) -> u32 {
    unsafe { declared::gate_bench_slow_swap_apply(sr.as_ptr(), sr.len(), si.as_ptr(), si.len(), reals.as_mut_ptr(),
        reals.len(), imags.as_mut_ptr(), imags.len(), n, t0, t1) }
}

pub fn slow_bit_flip_noise_apply(sr: &[f64], si: &[f64], reals: &mut [f64], imags: &mut [f64], n: u32, target: u32,
    prob: f64, draw: f64) -> u32 {
    unsafe { declared::gate_bench_slow_bit_flip_noise_apply(sr.as_ptr(), sr.len(), si.as_ptr(), si.len(),
        reals.as_mut_ptr(), reals.len(), imags.as_mut_ptr(), imags.len(), n, target, prob, draw) }
}

pub fn from_single_qubit_gate(reals: &mut [f64], imags: &mut [f64], n: u32, target: u32, re00: f64, im00: f64, re01: f64, im01: f64,
    re10: f64, im10: f64, re11: f64, im11: f64) -> u32 {
    unsafe { declared::gate_bench_from_single_qubit_gate(reals.as_mut_ptr(), reals.len(), imags.as_mut_ptr(), imags.len(), n, target, re00,
        im00, re01, im01, re10, im10, re11, im11) }
}

pub fn conj_t(reals: &mut [f64], imags: &mut [f64], n: u32) -> u32 {
    unsafe { declared::gate_bench_conj_t(reals.as_mut_ptr(), reals.len(), imags.as_mut_ptr(), imags.len(), n) }
}

pub fn multiply(ar: &[f64], ai: &[f64], br: &[f64], bi: &[f64], reals: &mut [f64], imags: &mut [f64], n: u32) -> u32 {
    unsafe { declared::gate_bench_multiply(ar.as_ptr(), ar.len(), ai.as_ptr(), ai.len(), br.as_ptr(), br.len(), bi.as_ptr(), bi.len(),
        reals.as_mut_ptr(), reals.len(), imags.as_mut_ptr(), imags.len(), n) }
}

pub fn apply_unitary(ar: &[f64], ai: &[f64], sr: &[f64], si: &[f64], reals: &mut [f64], imags: &mut [f64], n: u32) -> u32 {
    unsafe { declared::gate_bench_apply_unitary(ar.as_ptr(), ar.len(), ai.as_ptr(), ai.len(), sr.as_ptr(), sr.len(), si.as_ptr(), si.len(),
        reals.as_mut_ptr(), reals.len(), imags.as_mut_ptr(), imags.len(), n) }
}

/// A session's words: eight, as the archive's functions take them.
pub fn start(session: &mut [u32; 8], n: u32, number: u32) -> u32 {
    unsafe { declared::gate_bench_start(session.as_mut_ptr(), n, number) }
}

pub fn deliver(session: &mut [u32; 8], bytes: &[u8], reals: &mut [f64], imags: &mut [f64]) -> u32 {
    unsafe { declared::gate_bench_deliver(session.as_mut_ptr(), bytes.as_ptr(), bytes.len(), reals.as_mut_ptr(), reals.len(),
        imags.as_mut_ptr(), imags.len()) }
}

/// The bytes that are held: 97, as the archive's function takes them.
pub fn feed(session: &mut [u32; 8], kept: &mut u32, held: &mut [u8; 97], piece: &[u8], used: &mut usize, reals: &mut [f64],
    imags: &mut [f64]) -> u32 {
    unsafe { declared::gate_bench_feed(session.as_mut_ptr(), kept, held.as_mut_ptr(), piece.as_ptr(), piece.len(), used,
        reals.as_mut_ptr(), reals.len(), imags.as_mut_ptr(), imags.len()) }
}

pub fn read_record(bytes: &[u8], fields: &mut [u32], numbers: &mut [f64]) -> u32 {
    unsafe { declared::gate_bench_read_record(bytes.as_ptr(), bytes.len(), fields.as_mut_ptr(), fields.len(), numbers.as_mut_ptr(),
        numbers.len()) }
}

pub fn write_record(fields: &[u32], numbers: &[f64], out: &mut [u8]) -> u32 {
    unsafe { declared::gate_bench_write_record(fields.as_ptr(), fields.len(), numbers.as_ptr(), numbers.len(), out.as_mut_ptr(),
        out.len()) }
}

pub fn fused(x: f64, y: f64, z: f64) -> f64 {
    unsafe { declared::gate_bench_fused(x, y, z) }
}

pub fn root(x: f64) -> f64 {
    unsafe { declared::gate_bench_root(x) }
}
