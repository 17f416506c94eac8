//! Where the tapes come from.

use generator::{mixed_tapes, Mixture};
use rules::edition::Edition;
use std::path::PathBuf;

/// The tapes that `reference make` writes for a seed, without end.
pub fn of(seed: u64) -> impl Iterator<Item = Vec<u8>> {
    generator::tapes(Edition::default(), seed)
}

/// So many tapes of a kind.
pub fn some(kind: &str, seed: u64, count: usize) -> Vec<Vec<u8>> {
    match kind {
        "--night" => mixed_tapes(Mixture::Night, seed).take(count).collect(),
        "--fat" => mixed_tapes(Mixture::Fat, seed).take(count).collect(),
        _ => of(seed).take(count).collect(),
    }
}

/// All files of a folder whose names end with `.tape`, by name.
pub fn in_folder(folder: &str) -> Result<Vec<Vec<u8>>, String> {
    let failed = |error: std::io::Error| format!("{folder}: {error}");
    let mut paths = Vec::<PathBuf>::new();
    for entry in std::fs::read_dir(folder).map_err(failed)? {
        let path = entry.map_err(failed)?.path();
        if path.extension().is_some_and(|end| end == "tape") {
            paths.push(path);
        }
    }
    paths.sort();
    paths.iter().map(|path| std::fs::read(path).map_err(failed)).collect()
}
