//! Copies the original's source into the build folder, with document 01's tie keys and with constructors and getters for what is
//! private. The source itself is no part of this repository: where it is absent, the crate says so and is empty.
use std::fs;
use std::path::{Path, PathBuf};

struct Patch {
    file: &'static str,
    old: &'static str,
    new: &'static str,
    times: usize,
}

/// Document 01, "Ties, added": smaller component, slot, block or document first.
const PATCHES: &[Patch] = &[
    Patch {
        file: "posting_list.rs",
        old: ".sorted_unstable_by(|&(_, a), &(_, b)| b.total_cmp(&a))",
        new: ".sorted_unstable_by(|&(i, a), &(j, b)| b.total_cmp(&a).then(i.cmp(&j)))",
        times: 1,
    },
    Patch {
        file: "posting_list.rs",
        old: "pairs.select_nth_unstable_by(n_components - 1, |a, b| b.1.total_cmp(&a.1));",
        new: "pairs.select_nth_unstable_by(n_components - 1, |a, b| b.1.total_cmp(&a.1).then(a.0.cmp(&b.0)));",
        times: 1,
    },
    Patch {
        file: "posting_list.rs",
        old: "pairs.sort_unstable_by(|a, b| b.1.total_cmp(&a.1));",
        new: "pairs.sort_unstable_by(|a, b| b.1.total_cmp(&a.1).then(a.0.cmp(&b.0)));",
        times: 1,
    },
    Patch {
        file: "posting_list.rs",
        old: "clusters.sort_unstable_by_key(|a| a.0);",
        new: "clusters.sort_unstable();",
        times: 1,
    },
    Patch {
        file: "utils.rs",
        old: "a.1.to_f32().unwrap().total_cmp(&b.1.to_f32().unwrap())",
        new: "a.1.to_f32().unwrap().total_cmp(&b.1.to_f32().unwrap()).then(b.0.cmp(&a.0))",
        times: 2,
    },
];

/// What is appended to a file, to make and to read what the source keeps private.
const APPENDED: &[(&str, &str)] = &[
    (
        "posting_list.rs",
        "
impl PackedPostingBlock {
    pub fn number(&self) -> u64 { self.n }
    pub fn of_number(n: u64) -> Self { Self { n } }
}
impl<C: ComponentType> PostingList<C> {
    pub(crate) fn of_parts(packed: Vec<u64>, block_offsets: Vec<usize>, summaries: QuantizedSummary<C>) -> Self {
        Self { packed_postings: packed.into_iter().map(PackedPostingBlock::of_number).collect(), block_offsets: block_offsets.into_boxed_slice(), summaries }
    }
    pub(crate) fn fixed_offsets(n: usize, block_size: usize) -> Vec<usize> { Self::fixed_size_blocking(&vec![0; n], block_size) }
}
",
    ),
    (
        "quantized_summary.rs",
        "
pub struct SummaryParts { pub components: Vec<u32>, pub offsets: Vec<u64>, pub ids: Vec<u16>, pub codes: Vec<u8>, pub minimums: Vec<f32>, pub steps: Vec<f32> }
impl QuantizedSummary<u32> {
    pub fn parts(&self) -> SummaryParts {
        SummaryParts {
            components: self.component_ids.as_ref().expect(\"the sparse layout\").to_vec(),
            offsets: (0..self.offsets.len()).map(|i| self.offsets.select(i).unwrap() as u64).collect(),
            ids: (0..self.summaries_ids.len()).map(|i| unsafe { self.summaries_ids.get_unchecked(i) } as u16).collect(),
            codes: self.values.to_vec(),
            minimums: self.minimums.to_vec(),
            steps: self.quants.to_vec(),
        }
    }
    pub fn of_parts(dim: usize, p: SummaryParts) -> Self {
        Self {
            n_summaries: p.minimums.len(),
            dim,
            component_ids: Some(p.components.into_boxed_slice()),
            offsets: EliasFano::from(&p.offsets.iter().map(|&o| o as usize).collect::<Vec<_>>()),
            summaries_ids: BitField::from(p.ids.iter().map(|&i| i as u64).collect::<Vec<_>>()),
            values: p.codes.into_boxed_slice(),
            minimums: p.minimums.into_boxed_slice(),
            quants: p.steps.into_boxed_slice(),
        }
    }
}
",
    ),
    ("utils.rs", "\npub fn quantize_f32(values: &[f32]) -> (f32, f32, Vec<u8>) { quantize(values) }\n"),
];

fn source() -> Option<PathBuf> {
    let here = PathBuf::from(std::env::var("CARGO_MANIFEST_DIR").unwrap());
    here.ancestors().map(|a| a.join("shared/docs/src/src")).find(|p| p.is_dir())
}

fn patched(root: &Path, file: &'static str) -> String {
    println!("cargo:rerun-if-changed={}", root.join(file).display());
    let mut text = fs::read_to_string(root.join(file)).unwrap();
    for p in PATCHES.iter().filter(|p| p.file == file) {
        let found = text.matches(p.old).count();
        assert_eq!(found, p.times, "{file}: {:?} is there {found} times", p.old);
        text = text.replace(p.old, p.new);
    }
    for (_, more) in APPENDED.iter().filter(|(f, _)| *f == file) {
        text.push_str(more);
    }
    // a file's own introduction does not belong inside braces
    text.lines().filter(|l| !l.starts_with("//!")).collect::<Vec<_>>().join("\n")
}

fn main() {
    println!("cargo:rerun-if-changed=build.rs");
    let out = PathBuf::from(std::env::var("OUT_DIR").unwrap()).join("original.rs");
    let Some(root) = source() else {
        fs::write(out, "").unwrap();
        return;
    };
    println!("cargo:rustc-cfg=source");
    println!("cargo:present=1");
    let mut all = String::new();
    for (name, file) in [
        ("configurations", "configurations.rs"),
        ("index_traits", "index_traits.rs"),
        ("utils", "utils.rs"),
        ("quantized_summary", "quantized_summary.rs"),
        ("posting_list", "posting_list.rs"),
    ] {
        all.push_str(&format!("#[allow(dead_code, unused_imports, clippy::all)]\npub mod {name} {{\n{}\n}}\n", patched(&root, file)));
    }
    all.push_str("pub use quantized_summary::QuantizedSummary;\n");
    fs::write(out, all).unwrap();
}
