//! Work on many indices, shared out among threads.

const THREADS: usize = 2;

/// Does the work on every share of the indices below a number, each in a thread; answers what each came to.
///
/// # Panics
/// Where the work on a share does; its own message stands above.
pub fn shared_out<T: Send>(
    indices: u64,
    work: impl Fn(&mut dyn Iterator<Item = u64>) -> T + Sync,
) -> Vec<T> {
    let share = |first: usize| work(&mut (first as u64..indices).step_by(THREADS));
    std::thread::scope(|scope| {
        let share = &share;
        let threads: Vec<_> = (0..THREADS).map(|first| scope.spawn(move || share(first))).collect();
        let joined = threads.into_iter().map(|thread| thread.join());
        joined.map(|share| share.expect("the report stands above")).collect()
    })
}
