//! Copying and exchanging areas and parts of them: the proved functions, linked from
//! crates/edge/out/libedge.a, beside Rust's own and beside plain loops with
//! checked indices.
//!
//! Within Rust 1.63 and std alone: it is also built by Debian's rustc.

mod race;

/// Bytes of an area.
const AREA: usize = 4096;

// Slices cross the boundary as an address and a length, in Rust as in Rattle.
#[allow(improper_ctypes)]
#[link(name = "edge", kind = "static")]
extern "C" {
    fn edge_copy(dst: &mut [u8], src: &[u8]);
    fn edge_exchange(a: &mut [u8], b: &mut [u8]);
}

#[repr(align(64))]
struct Area([u8; AREA]);

type Contender = (&'static str, fn(&mut [u8], &mut [u8]));

fn copy_proved(a: &mut [u8], b: &mut [u8]) {
    unsafe { edge_copy(a, b) }
}

#[inline(never)]
fn copy_own(a: &mut [u8], b: &mut [u8]) {
    a.copy_from_slice(b)
}

#[inline(never)]
fn copy_loop(a: &mut [u8], b: &mut [u8]) {
    let mut i = 0;
    while i < b.len() {
        a[i] = b[i];
        i += 1;
    }
}

fn exchange_proved(a: &mut [u8], b: &mut [u8]) {
    unsafe { edge_exchange(a, b) }
}

#[inline(never)]
fn exchange_own(a: &mut [u8], b: &mut [u8]) {
    a.swap_with_slice(b)
}

#[inline(never)]
fn exchange_loop(a: &mut [u8], b: &mut [u8]) {
    let mut i = 0;
    while i < b.len() {
        let kept = a[i];
        a[i] = b[i];
        b[i] = kept;
        i += 1;
    }
}

const COPIES: [Contender; 3] = [
    ("Rust's copy_from_slice", copy_own),
    ("Rattle", copy_proved),
    ("Rust, index loop", copy_loop),
];

const EXCHANGES: [Contender; 3] = [
    ("Rust's swap_with_slice", exchange_own),
    ("Rattle", exchange_proved),
    ("Rust, index loop", exchange_loop),
];

/// The byte at a place of the first and of the second of two areas: they differ
/// at every place, so that a byte that did not move is seen.
fn bytes_at(i: usize) -> (u8, u8) {
    ((i % 127) as u8, (128 + i % 113) as u8)
}

fn areas() -> (Area, Area) {
    let (mut a, mut b) = (Area([0; AREA]), Area([0; AREA]));
    for i in 0..AREA {
        let (x, y) = bytes_at(i);
        a.0[i] = x;
        b.0[i] = y;
    }
    (a, b)
}

/// Room for the sizes at which the contenders are compared: more than an area,
/// so that a copy has several blocks.
const ROOM: usize = 6200;

fn rooms() -> (Vec<u8>, Vec<u8>) {
    (0..ROOM).map(bytes_at).unzip()
}

/// The sizes, on both sides of the blocks that the proved functions go by.
fn sizes() -> impl Iterator<Item = usize> {
    (0..=200).chain(2040..=2060).chain(4080..=4110).chain(6140..=6150)
}

/// All contenders leave the same bytes at every size, or the program stops.
fn agree(contenders: &[Contender]) {
    for n in sizes() {
        let wanted = after(contenders[0].1, n, n);
        for (name, call) in contenders {
            assert!(after(*call, n, n) == wanted, "{} leaves other bytes at {}", name, n);
        }
    }
}

/// Both rooms after a call that was lent the first bytes of each.
fn after(call: fn(&mut [u8], &mut [u8]), n: usize, m: usize) -> (Vec<u8>, Vec<u8>) {
    let (mut a, mut b) = rooms();
    call(&mut a[..n], &mut b[..m]);
    (a, b)
}

/// The proved functions at two sizes, for which Rust's have no meaning: areas of
/// two sizes stay, what is too long is not copied, and what is shorter is.
fn two_sizes() {
    let old = rooms();
    for (n, m) in sizes().zip(sizes().skip(1)) {
        assert!(after(exchange_proved, n, m) == old, "{} and {} were exchanged", n, m);
        assert!(after(exchange_proved, m, n) == old, "{} and {} were exchanged", m, n);
        assert!(after(copy_proved, n, m) == old, "{} were copied to {}", m, n);
        let (a, b) = after(copy_proved, m, n);
        let copied = a[..n] == old.1[..n] && a[n..] == old.0[n..];
        assert!(copied && b == old.1, "the copy of {} to {} differs", n, m);
    }
}

fn race(title: &str, contenders: &[Contender]) {
    agree(contenders);
    let names: Vec<&str> = contenders.iter().map(|(name, _)| *name).collect();
    race::race(&format!("{} of {} bytes", title, AREA), &names, |at| {
        let (mut a, mut b) = areas();
        race::time(|| contenders[at].1(&mut a.0, &mut b.0))
    });
}

fn main() {
    two_sizes();
    race("copy", &COPIES);
    race("exchange", &EXCHANGES);
}
