//! Stand-in for clap: what types.rs names, and no command line.
pub use derives::ValueEnum;

pub trait ValueEnum: Sized {
    fn value_variants<'a>() -> &'a [Self];
    fn to_possible_value(&self) -> Option<builder::PossibleValue>;
}

pub mod builder {
    pub struct PossibleValue(pub &'static str);

    impl PossibleValue {
        pub fn new(name: &'static str) -> Self {
            PossibleValue(name)
        }
    }
}
