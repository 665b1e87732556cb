//! The one call of the archive.

use crate::{Job, Reply};

/// How many numbers a work area has.
pub const AREA: usize = 6400;
/// How many bytes a reply has at most.
pub const REPLY: usize = 8192;

unsafe extern "C" {
    fn sakiromuk_run(
        text: *const u8,
        text_len: usize,
        reply: *mut u8,
        reply_len: usize,
        p: *mut f64,
        p_len: usize,
        q: *mut f64,
        q_len: usize,
        r: *mut f64,
        r_len: usize,
    ) -> usize;
}

/// What a job works in: three work areas and the room for a reply. It remembers nothing from one job to the next; each thread has its own.
#[derive(Clone, Debug)]
pub struct Fitter {
    areas: [Vec<f64>; 3],
    reply: Vec<u8>,
}

impl Fitter {
    /// A fitter, with the room that every job needs: 161,792 bytes on the heap.
    pub fn new() -> Self {
        Self { areas: [vec![0.0; AREA], vec![0.0; AREA], vec![0.0; AREA]], reply: vec![0; REPLY] }
    }

    /// The reply to a job.
    pub fn fit(&mut self, job: &Job) -> Reply {
        let reply = self.run(job.text().as_bytes());
        std::str::from_utf8(reply).ok().and_then(|text| text.parse().ok()).expect("the fitter's replies are of the form that `Reply` reads")
    }

    /// The reply to a job's text, as bytes: `status=2` alone where the text is no job's.
    pub fn run(&mut self, text: &[u8]) -> &[u8] {
        let [p, q, r] = &mut self.areas;
        let n = run_in(text, &mut self.reply, p, q, r);
        &self.reply[..n]
    }
}

impl Default for Fitter {
    fn default() -> Self {
        Self::new()
    }
}

/// The call itself, on slices of any length: the length of the reply to `text`. Where `reply` has that room the reply is at its head and
/// its rest is as it was; where it has not, nothing of it changes. An area of fewer than [`AREA`] numbers is [`Status::TooShort`]. After a fit, and
/// after one that fails, the first [`AREA`] numbers of each area are +0.0; after a refusal they are as they were.
///
/// [`Status::TooShort`]: crate::Status::TooShort
pub fn run_in(text: &[u8], reply: &mut [u8], p: &mut [f64], q: &mut [f64], r: &mut [f64]) -> usize {
    // SAFETY: each slice is a pointer with its length, and the five do not overlap, since four of them are borrowed mutably.
    unsafe {
        sakiromuk_run(
            text.as_ptr(),
            text.len(),
            reply.as_mut_ptr(),
            reply.len(),
            p.as_mut_ptr(),
            p.len(),
            q.as_mut_ptr(),
            q.len(),
            r.as_mut_ptr(),
            r.len(),
        )
    }
}
