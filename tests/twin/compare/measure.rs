//! Speed side by side: what each side does a second, and the ratio.

/// Each measurement is repeated so often, and its median taken.
pub const REPETITIONS: usize = 31;

/// What the library and the twin do a second, each run by its function, and their ratio: medians.
pub fn side_by_side(mut library: impl FnMut() -> f64, mut twin: impl FnMut() -> f64) -> [f64; 3] {
    let mut figures = [const { Vec::new() }; 3];
    for repetition in 0..=REPETITIONS {
        // Turn about, so that what disturbs one disturbs the other.
        let (of_library, of_twin) = if repetition % 2 == 0 {
            let of_library = library();
            (of_library, twin())
        } else {
            let of_twin = twin();
            (library(), of_twin)
        };
        // The first one warms up.
        if repetition > 0 {
            for (figures, figure) in figures.iter_mut().zip([of_library, of_twin, of_library / of_twin]) {
                figures.push(figure);
            }
        }
    }
    figures.map(median)
}

fn median(mut figures: Vec<f64>) -> f64 {
    figures.sort_by(f64::total_cmp);
    figures[figures.len() / 2]
}
