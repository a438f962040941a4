//! Stand-ins for the parts of gatk-rs that the oracle's files name and that are not at hand:
//! the crates `gatk_common`, `gatk_core` and `statrs`, and three modules of
//! gatk-haplotypecaller. Nothing here is the original. Each item has only the shape that the
//! Rust asks for; whatever would touch a file says so and fails. Positions, REF, ALT, PL, AD,
//! DP, GQ and GT pass through these types unchanged.

use std::fmt;

/// Stand-in for `gatk_common::GatkError`: a message.
#[derive(Debug, Clone, PartialEq, Eq)]
pub struct GatkError(pub String);

pub type GatkResult<T> = Result<T, GatkError>;

impl GatkError {
    pub fn argument(message: impl Into<String>) -> Self {
        GatkError(message.into())
    }

    pub fn invalid_argument(name: &str, message: impl Into<String>) -> Self {
        GatkError(format!("{name}: {}", message.into()))
    }
}

impl fmt::Display for GatkError {
    fn fmt(&self, f: &mut fmt::Formatter<'_>) -> fmt::Result {
        f.write_str(&self.0)
    }
}

impl std::error::Error for GatkError {}

impl From<std::io::Error> for GatkError {
    fn from(error: std::io::Error) -> Self {
        GatkError(error.to_string())
    }
}

/// Stand-in for `gatk_common::HaplotypeCallerConfig`.
#[derive(Debug, Clone)]
pub struct HaplotypeCallerConfig {
    pub min_base_quality_score: u8,
    pub stand_call_confidence: f64,
}

/// Stand-in for `gatk_core::MappingQuality`.
#[derive(Debug, Clone, Copy, PartialEq, Eq)]
pub struct MappingQuality(pub u8);

fn no_files<T>() -> GatkResult<T> {
    Err(GatkError::argument("stand-in: the oracle loads no files"))
}

pub mod io {
    /// Stand-ins for `gatk_core::io::vcf`.
    pub mod vcf {
        use crate::{no_files, GatkResult};
        use std::path::Path;

        #[derive(Debug, Clone, PartialEq, Eq)]
        pub struct Genotype {
            pub alleles: Vec<i32>,
            pub phased: bool,
        }

        #[derive(Debug, Clone, PartialEq)]
        pub struct SampleData {
            pub gt: Option<Genotype>,
            pub gq: Option<f64>,
            pub dp: Option<u32>,
            pub ad: Option<Vec<u32>>,
            pub pl: Option<Vec<u32>>,
            pub other: Vec<(String, String)>,
        }

        #[derive(Debug, Clone, PartialEq)]
        pub enum InfoValue {
            Integer(String, Vec<i32>),
            Float(String, Vec<f64>),
        }

        #[derive(Debug, Clone, PartialEq)]
        pub struct VcfRecord {
            pub chromosome: String,
            pub position: u64,
            pub id: String,
            pub reference: String,
            pub alternate: Vec<String>,
            pub quality: Option<f64>,
            pub filter: Vec<String>,
            pub info: Vec<InfoValue>,
            pub format: Vec<String>,
            pub samples: Vec<SampleData>,
        }

        #[derive(Debug, Clone)]
        pub struct Contig {
            pub id: String,
            pub length: Option<u64>,
            pub md5: Option<String>,
            pub assembly: Option<String>,
            pub species: Option<String>,
            pub uri: Option<String>,
        }

        #[derive(Debug, Clone)]
        pub struct InfoField {
            pub id: String,
            pub number: String,
            pub type_field: String,
            pub description: String,
            pub source: Option<String>,
            pub version: Option<String>,
        }

        #[derive(Debug, Clone)]
        pub struct FormatField {
            pub id: String,
            pub number: String,
            pub type_field: String,
            pub description: String,
        }

        #[derive(Debug, Clone, Default)]
        pub struct VcfHeader {
            pub file_format: String,
            pub source: Option<String>,
            pub reference: Option<String>,
            pub contigs: Vec<Contig>,
            pub info_fields: Vec<InfoField>,
            pub format_fields: Vec<FormatField>,
            pub samples: Vec<String>,
        }

        pub struct VcfReader {
            header: VcfHeader,
        }

        impl VcfReader {
            pub fn from_file(_path: &Path) -> GatkResult<Self> {
                no_files()
            }

            pub fn header(&self) -> &VcfHeader {
                &self.header
            }

            pub fn read_next_record(&mut self) -> GatkResult<Option<VcfRecord>> {
                no_files()
            }
        }

        pub struct VcfWriter;

        impl VcfWriter {
            pub fn new(_path: &Path, _header: VcfHeader) -> GatkResult<Self> {
                no_files()
            }

            pub fn write_header(&mut self) -> GatkResult<()> {
                no_files()
            }

            pub fn write_record(&mut self, _record: &VcfRecord) -> GatkResult<()> {
                no_files()
            }

            pub fn write_records(&mut self, _records: &[VcfRecord]) -> GatkResult<()> {
                no_files()
            }
        }
    }
}

/// Stand-ins for `gatk_core::reference`: the FASTA lookup is served from memory.
pub mod reference {
    use crate::{no_files, GatkError, GatkResult};
    use std::cell::RefCell;
    use std::path::Path;

    /// A stretch of reference letters, as a group of reference.kv gives it.
    #[derive(Debug, Clone, PartialEq, Eq)]
    pub struct Stretch {
        pub contig: String,
        pub first: u64,
        pub bases: String,
    }

    thread_local! {
        static LENT: RefCell<Vec<Stretch>> = const { RefCell::new(Vec::new()) };
    }

    /// Puts the reference in place that `reference_base_at_1based` reads on this thread.
    pub fn lend(stretches: &[Stretch]) {
        LENT.with(|lent| *lent.borrow_mut() = stretches.to_vec());
    }

    /// The letter at a position: that of the first stretch which holds it. `_path` is not read.
    pub fn reference_base_at_1based(_path: &Path, contig: &str, position: u64) -> GatkResult<u8> {
        LENT.with(|lent| {
            for s in lent.borrow().iter() {
                if s.contig == contig && s.first <= position {
                    let offset = (position - s.first) as usize;
                    if let Some(&letter) = s.bases.as_bytes().get(offset) {
                        return Ok(letter);
                    }
                }
            }
            Err(GatkError::argument(format!(
                "no reference letter at {contig}:{position}"
            )))
        })
    }

    pub struct DictionaryContig {
        pub length: u64,
    }

    pub struct SequenceDictionary;

    impl SequenceDictionary {
        pub fn from_fasta_path(_path: &Path) -> GatkResult<Self> {
            no_files()
        }

        pub fn contig(&self, _name: &str) -> Option<&DictionaryContig> {
            None
        }
    }

    pub struct IntervalSpec {
        pub contig: String,
        pub start: Option<u64>,
        pub end: Option<u64>,
    }

    pub fn parse_intervals_cli_string(
        _dictionary: &SequenceDictionary,
        _intervals: &str,
    ) -> GatkResult<Vec<IntervalSpec>> {
        no_files()
    }
}

/// Stand-in for `statrs::function`. Only allele frequencies lean on it, which are out of scope.
pub mod function {
    pub mod gamma {
        /// Lanczos' approximation.
        pub fn ln_gamma(x: f64) -> f64 {
            const C: [f64; 6] = [
                76.180_091_729_471_46,
                -86.505_320_329_416_77,
                24.014_098_240_830_91,
                -1.231_739_572_450_155,
                0.001_208_650_973_866_179,
                -0.000_005_395_239_384_953,
            ];
            let t = x + 5.5;
            let mut sum = 1.000_000_000_190_015;
            for (i, c) in C.iter().enumerate() {
                sum += c / (x + 1.0 + i as f64);
            }
            (x + 0.5) * t.ln() - t + (2.506_628_274_631_000_5 * sum / x).ln()
        }
    }
}

/// Stand-in for gatk-haplotypecaller's `activity_profile`, which is out of scope.
pub mod activity_profile {
    pub struct ActivityProfileState;

    impl ActivityProfileState {
        pub fn new(_contig: &str, _position: u64, _probability: f64) -> Self {
            ActivityProfileState
        }
    }
}

/// Stand-in for gatk-haplotypecaller's `minimal_genotyping`, which is out of scope.
pub mod minimal_genotyping {
    use crate::activity_profile::ActivityProfileState;

    pub fn haplotype_caller_activity_profile_state_minimal_genotyping<O, P>(
        _contig: impl Into<String>,
        _position: u64,
        _pileup: &[O],
        _params: &P,
    ) -> ActivityProfileState {
        unreachable!("stand-in: the oracle scores no activity")
    }
}

/// Stand-in for gatk-haplotypecaller's `hc_joint_is_active`, which is out of scope.
pub mod hc_joint_is_active {
    use crate::activity_profile::ActivityProfileState;

    pub fn haplotype_caller_joint_multisample_is_active_activity_state<O, P>(
        _contig: impl Into<String>,
        _position: u64,
        _pileups: &[&[O]],
        _params: &P,
    ) -> ActivityProfileState {
        unreachable!("stand-in: the oracle scores no activity")
    }
}
