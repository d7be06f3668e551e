// Measures P and Q of ten data sectors, and mending two data columns, in MB of data a second; first it tries every pair of columns.
use std::hint::black_box;
use std::time::Instant;

unsafe extern "C" {
    fn field_make_parity(stripe: *mut u64, words: usize, k: usize) -> bool;
    fn field_parity_by_table(stripe: *const u64, words: usize, k: usize, p: *mut u64, p_words: usize, q: *mut u64, q_words: usize) -> bool;
    fn field_mend(stripe: *mut u64, words: usize, k: usize, a: usize, b: usize) -> bool;
}

const K: usize = 12;
const TURNS: usize = 100_000;

// The best of five runs.
fn rate(what: &str, mut once: impl FnMut()) {
    let mut best = 0.0f64;
    for _ in 0..5 {
        let start = Instant::now();
        for _ in 0..TURNS {
            once();
        }
        let bytes = (TURNS * (K - 2) * 512) as f64;
        best = best.max(bytes / start.elapsed().as_secs_f64() / 1e6);
    }
    println!("{what}: {best:.0} MB/s");
}

fn main() {
    let mut stripe = vec![0u64; 64 * K];
    let mut x = 1u64;
    for w in stripe.iter_mut() {
        x = x.wrapping_mul(6364136223846793005).wrapping_add(1442695040888963407);
        *w = x;
    }
    assert!(unsafe { field_make_parity(stripe.as_mut_ptr(), stripe.len(), K) });
    let whole = stripe.clone();
    for a in 0..K {
        for b in a + 1..K {
            for c in [a, b] {
                stripe[64 * c..64 * c + 64].fill(0xdead);
            }
            assert!(unsafe { field_mend(stripe.as_mut_ptr(), stripe.len(), K, a, b) });
            assert!(stripe == whole, "columns {a} and {b} are not had again");
        }
    }
    let (mut p, mut q) = ([0u64; 64], [0u64; 64]);
    let mut by_table = || unsafe {
        let s = black_box(&stripe);
        field_parity_by_table(s.as_ptr(), s.len(), K, p.as_mut_ptr(), 64, q.as_mut_ptr(), 64)
    };
    assert!(by_table());
    rate("P and Q of ten sectors, by the element's table", || {
        by_table();
    });
    assert!(p[..] == whole[..64] && q[..] == whole[64..128]);
    rate("P and Q of ten sectors, over whole words", || {
        let s = black_box(&mut stripe);
        unsafe { field_make_parity(s.as_mut_ptr(), s.len(), K) };
    });
    for (a, b) in [(2, 3), (5, 8), (2, 11)] {
        rate(&format!("mending data columns {} and {} of ten", a - 2, b - 2), || {
            let s = black_box(&mut stripe);
            unsafe { field_mend(s.as_mut_ptr(), s.len(), K, a, b) };
        });
    }
}
