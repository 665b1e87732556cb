//! The calls of librooms_c.a. A slice goes over as a pointer and a length; a build as the text of a job.

unsafe extern "C" {
    fn rooms_abs(x: f64) -> f64;
    fn rooms_is_finite(x: f64) -> bool;
    fn rooms_max(a: f64, b: f64) -> f64;
    fn rooms_magnitude(x: f64) -> u64;
    fn rooms_handed_out(x: f64) -> f64;
    fn rooms_get(s: *const f64, len: usize, i: usize) -> f64;
    fn rooms_put(s: *mut f64, len: usize, i: usize, v: f64);
    fn rooms_sqrt(x: f64) -> f64;
    fn rooms_solve_dense(a: *mut f64, a_len: usize, b: *mut f64, b_len: usize, n: usize) -> usize;
    fn rooms_max_abs(v: *const f64, len: usize) -> f64;
    fn rooms_norm2(v: *const f64, len: usize) -> f64;
    fn rooms_null_space(m: *const f64, m_len: usize, rows: usize, n: usize, work: *mut f64, work_len: usize, out: *mut f64, out_len: usize) -> usize;
    fn rooms_groups(text: *const u8, text_len: usize, points: *mut usize, points_len: usize, equations: *mut usize, equations_len: usize) -> usize;
    fn rooms_residuals(
        text: *const u8,
        text_len: usize,
        chosen: *const usize,
        chosen_len: usize,
        places: *const u8,
        places_len: usize,
        x: *const f64,
        x_len: usize,
        r: *mut f64,
        r_len: usize,
        times: usize,
    ) -> usize;
    fn rooms_jacobian(
        text: *const u8,
        text_len: usize,
        chosen: *const usize,
        chosen_len: usize,
        places: *const u8,
        places_len: usize,
        columns: *const u8,
        columns_len: usize,
        free: usize,
        x: *const f64,
        x_len: usize,
        j: *mut f64,
        j_len: usize,
        times: usize,
    ) -> usize;
    fn rooms_level(text: *const u8, text_len: usize, points: *mut f64, points_len: usize);
    fn rooms_measures(text: *const u8, text_len: usize, points: *const f64, points_len: usize, out: *mut f64, out_len: usize);
    fn rooms_worst(text: *const u8, text_len: usize, points: *const f64, points_len: usize) -> f64;
    fn rooms_solve(
        text: *const u8,
        text_len: usize,
        out: *mut f64,
        out_len: usize,
        p: *mut f64,
        p_len: usize,
        q: *mut f64,
        q_len: usize,
        r: *mut f64,
        r_len: usize,
    ) -> usize;
}

pub fn abs(x: f64) -> f64 {
    unsafe { rooms_abs(x) }
}

pub fn is_finite(x: f64) -> bool {
    unsafe { rooms_is_finite(x) }
}

pub fn max(a: f64, b: f64) -> f64 {
    unsafe { rooms_max(a, b) }
}

pub fn magnitude(x: f64) -> u64 {
    unsafe { rooms_magnitude(x) }
}

pub fn handed_out(x: f64) -> f64 {
    unsafe { rooms_handed_out(x) }
}

pub fn get(s: &[f64], i: usize) -> f64 {
    unsafe { rooms_get(s.as_ptr(), s.len(), i) }
}

pub fn put(s: &mut [f64], i: usize, v: f64) {
    unsafe { rooms_put(s.as_mut_ptr(), s.len(), i, v) }
}

pub fn sqrt(x: f64) -> f64 {
    unsafe { rooms_sqrt(x) }
}

/// What elimination answers: this, the number of a refusal, that a result is not finite, or this and the column, counted from 1, in which
/// there is no pivot.
pub const SOLVED: usize = 0;
pub const NOT_FINITE: usize = 255;
pub const NO_PIVOT: usize = 256;

pub fn solve_dense(a: &mut [f64], b: &mut [f64], n: usize) -> usize {
    unsafe { rooms_solve_dense(a.as_mut_ptr(), a.len(), b.as_mut_ptr(), b.len(), n) }
}

pub fn max_abs(v: &[f64]) -> f64 {
    unsafe { rooms_max_abs(v.as_ptr(), v.len()) }
}

pub fn norm2(v: &[f64]) -> f64 {
    unsafe { rooms_norm2(v.as_ptr(), v.len()) }
}

/// Null space answers a rank below this, or this and the number of a refusal.
pub const REFUSED: usize = 256;

pub fn null_space(m: &[f64], rows: usize, n: usize, work: &mut [f64], out: &mut [f64]) -> usize {
    unsafe { rooms_null_space(m.as_ptr(), m.len(), rows, n, work.as_mut_ptr(), work.len(), out.as_mut_ptr(), out.len()) }
}

/// The group of a point or an equation that is in none.
pub const NO_GROUP: usize = 40;

/// How many groups there are; the group of each point and of each equation, as far as there is room.
pub fn groups(text: &[u8], points: &mut [usize], equations: &mut [usize]) -> usize {
    unsafe { rooms_groups(text.as_ptr(), text.len(), points.as_mut_ptr(), points.len(), equations.as_mut_ptr(), equations.len()) }
}

/// A sweep over chosen equations of a build: where the coordinates of each point stand in `x`, and in which column of the gradients each
/// coordinate is, if it is free.
pub struct Sweep {
    pub text: Vec<u8>,
    pub chosen: Vec<usize>,
    pub places: Vec<u8>,
    pub columns: Vec<u8>,
    pub free: usize,
    pub x: Vec<f64>,
}

impl Sweep {
    /// The residuals, worked out `times` times; how many there are.
    pub fn residuals(&self, r: &mut [f64], times: usize) -> usize {
        let Self { text, chosen, places, x, .. } = self;
        unsafe {
            rooms_residuals(
                text.as_ptr(),
                text.len(),
                chosen.as_ptr(),
                chosen.len(),
                places.as_ptr(),
                places.len(),
                x.as_ptr(),
                x.len(),
                r.as_mut_ptr(),
                r.len(),
                times,
            )
        }
    }

    /// The gradients as dense rows over the free coordinates, worked out `times` times; how many rows there are.
    pub fn jacobian(&self, j: &mut [f64], times: usize) -> usize {
        let Self { text, chosen, places, columns, free, x } = self;
        unsafe {
            rooms_jacobian(
                text.as_ptr(),
                text.len(),
                chosen.as_ptr(),
                chosen.len(),
                places.as_ptr(),
                places.len(),
                columns.as_ptr(),
                columns.len(),
                *free,
                x.as_ptr(),
                x.len(),
                j.as_mut_ptr(),
                j.len(),
                times,
            )
        }
    }
}

pub fn level(text: &[u8], points: &mut [f64]) {
    unsafe { rooms_level(text.as_ptr(), text.len(), points.as_mut_ptr(), points.len()) }
}

pub fn measures(text: &[u8], points: &[f64], out: &mut [f64]) {
    unsafe { rooms_measures(text.as_ptr(), text.len(), points.as_ptr(), points.len(), out.as_mut_ptr(), out.len()) }
}

/// The largest residual at the points, each brought to the centre and size of the build.
pub fn worst(text: &[u8], points: &[f64]) -> f64 {
    unsafe { rooms_worst(text.as_ptr(), text.len(), points.as_ptr(), points.len()) }
}

/// The library call itself, on the build of a text: the number that the job ends in.
pub fn solve(text: &[u8], out: &mut [f64], p: &mut [f64], q: &mut [f64], r: &mut [f64]) -> usize {
    unsafe {
        rooms_solve(text.as_ptr(), text.len(), out.as_mut_ptr(), out.len(), p.as_mut_ptr(), p.len(), q.as_mut_ptr(), q.len(), r.as_mut_ptr(), r.len())
    }
}
