//! Verifies signatures of Keyless Signatures' Infrastructure with the proved library libksi. ksi.h documents each field.
use std::io;

/// The result of [`verify`] and of [`check_front`].
#[repr(C)]
#[derive(Clone, Copy, Debug, Default, PartialEq, Eq)]
pub struct Answer {
    pub status: u32,
    pub file: u32,
    pub code: u32,
    pub detail: u32,
    pub second: u64,
    pub numbers: [u64; 4],
    pub one: [u8; 32],
    pub other: [u8; 32],
}

impl Answer {
    /// The publication that an accepted signature rests on. It has a meaning only if a signature is accepted.
    pub fn publication(&self) -> Publication {
        Publication {
            second: self.numbers[0],
            root: self.one,
        }
    }
}

/// The last second of a calendar, and the SHA-256 digest that is its root.
#[derive(Clone, Copy, Debug, PartialEq, Eq)]
pub struct Publication {
    pub second: u64,
    pub root: [u8; 32],
}

/// A link of a signature with both parts and their join.
#[repr(C)]
#[derive(Clone, Debug)]
pub struct Step {
    pub chain: u64,
    pub place: u64,
    pub size: u64,
    pub calendar: u32,
    pub side: u32,
    pub level: u32,
    pub raw: u32,
    pub node: [u8; 32],
    pub join: [u8; 32],
    pub sibling: [u8; 4096],
}

/// Computes the SHA-256 of bytes that arrive in pieces, by [`Hasher::update`] or as an [`std::io::Write`].
#[repr(C)]
#[derive(Clone, Debug)]
pub struct Hasher {
    h: [u32; 8],
    buffer: [u8; 64],
    total: u64,
}

impl Hasher {
    pub fn new() -> Hasher {
        same_interface();
        let mut hasher = Hasher { h: [0; 8], buffer: [0; 64], total: 0 };
        unsafe { ksi_hash_start(&mut hasher) };
        hasher
    }

    /// Adds the bytes of a piece.
    pub fn update(&mut self, piece: &[u8]) {
        unsafe { ksi_hash_more(self, piece.as_ptr(), piece.len()) };
    }

    /// Returns the SHA-256 of the bytes so far. More may be added after it.
    pub fn digest(&self) -> [u8; 32] {
        let mut out = [0; 32];
        unsafe { ksi_hash_end(self, out.as_mut_ptr()) };
        out
    }
}

impl Default for Hasher {
    fn default() -> Hasher {
        Hasher::new()
    }
}

impl io::Write for Hasher {
    fn write(&mut self, piece: &[u8]) -> io::Result<usize> {
        self.update(piece);
        Ok(piece.len())
    }

    fn flush(&mut self) -> io::Result<()> {
        Ok(())
    }
}

const BLANK: Step = Step {
    chain: 0,
    place: 0,
    size: 0,
    calendar: 0,
    side: 0,
    level: 0,
    raw: 0,
    node: [0; 32],
    join: [0; 32],
    sibling: [0; 4096],
};

extern "C" {
    fn ksi_abi() -> u32;
    fn ksi_hash(bytes: *const u8, len: usize, digest: *mut u8);
    fn ksi_hash_start(state: *mut Hasher);
    fn ksi_hash_more(state: *mut Hasher, bytes: *const u8, len: usize);
    fn ksi_hash_end(state: *const Hasher, digest: *mut u8);
    fn ksi_verify(
        signature: *const u8,
        signature_len: usize,
        digest: *const u8,
        publications: *const u8,
        publications_len: usize,
        answer: *mut Answer,
    ) -> u32;
    fn ksi_second(signature: *const u8, signature_len: usize, second: *mut u64) -> u32;
    fn ksi_check_front(
        front: *const u8,
        front_len: usize,
        p1: u64,
        root1: *const u8,
        p2: u64,
        root2: *const u8,
        answer: *mut Answer,
    ) -> u32;
    fn ksi_step(signature: *const u8, signature_len: usize, number: usize, step: *mut Step) -> u32;
}

// The linked library may have other structs than those above.
fn same_interface() {
    assert!(
        unsafe { ksi_abi() } == 2,
        "libksi has another interface than this crate"
    );
}

/// Returns the SHA-256 of bytes.
pub fn digest(bytes: &[u8]) -> [u8; 32] {
    same_interface();
    let mut out = [0; 32];
    unsafe { ksi_hash(bytes.as_ptr(), bytes.len(), out.as_mut_ptr()) };
    out
}

/// Verifies a signature for the SHA-256 digest of a document, against a publications file.
pub fn verify(signature: &[u8], digest: &[u8; 32], publications: &[u8]) -> Answer {
    same_interface();
    let mut answer = Answer::default();
    unsafe {
        ksi_verify(
            signature.as_ptr(),
            signature.len(),
            digest.as_ptr(),
            publications.as_ptr(),
            publications.len(),
            &mut answer,
        )
    };
    answer
}

/// Returns the second that a signature states, before or after it is published. No check runs. `None` if the bytes are no signature.
pub fn second(signature: &[u8]) -> Option<u64> {
    same_interface();
    let mut second = 0;
    let status = unsafe { ksi_second(signature.as_ptr(), signature.len(), &mut second) };
    (status == 0).then_some(second)
}

/// Checks a consistency proof (a front): that the calendar to the old publication is the beginning of that to the new one.
pub fn check_front(front: &[u8], old: &Publication, new: &Publication) -> Answer {
    same_interface();
    let mut answer = Answer::default();
    unsafe {
        ksi_check_front(
            front.as_ptr(),
            front.len(),
            old.second,
            old.root.as_ptr(),
            new.second,
            new.root.as_ptr(),
            &mut answer,
        )
    };
    answer
}

/// Returns the links of a signature from the document's hash up. If the bytes are no signature, there are none.
pub fn steps(signature: &[u8]) -> impl Iterator<Item = Step> + '_ {
    same_interface();
    (0..).map_while(move |number| {
        let mut step = BLANK;
        let status = unsafe { ksi_step(signature.as_ptr(), signature.len(), number, &mut step) };
        (status == 0).then_some(step)
    })
}
