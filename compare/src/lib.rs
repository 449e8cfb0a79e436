//! Scenes for comparing the archive with the Rust originals: random ones, and those that sit on an edge. The originals' enums by ours.

pub mod scene;

pub fn strategy_of(strategy: engine::AutoscaleStrategy) -> oracle::AutoscaleStrategy {
    use engine::AutoscaleStrategy as Ours;
    use oracle::AutoscaleStrategy as Theirs;
    match strategy {
        Ours::Standard => Theirs::Standard,
        Ours::Robust => Theirs::Robust,
        Ours::Adaptive => Theirs::Adaptive,
        Ours::Equalized => Theirs::Equalized,
        Ours::Clahe => Theirs::Clahe,
        Ours::Tamed => Theirs::Tamed,
        Ours::Default => Theirs::Default,
    }
}

pub fn mode_of(mode: engine::SyntheticRgbMode) -> oracle::SyntheticRgbMode {
    use engine::SyntheticRgbMode as Ours;
    use oracle::SyntheticRgbMode as Theirs;
    match mode {
        Ours::Default => Theirs::Default,
        Ours::RgbRatio => Theirs::RgbRatio,
        Ours::SarUrban => Theirs::SarUrban,
        Ours::Enhanced => Theirs::Enhanced,
    }
}

pub fn copol_of(copol: engine::CoPol) -> oracle::CoPol {
    match copol {
        engine::CoPol::Band1 => oracle::CoPol::Band1,
        engine::CoPol::Band2 => oracle::CoPol::Band2,
    }
}

pub fn operation_of(operation: engine::PolarizationOperation) -> oracle::PolarizationOperation {
    use engine::PolarizationOperation as Ours;
    use oracle::PolarizationOperation as Theirs;
    match operation {
        Ours::Sum => Theirs::Sum,
        Ours::Diff => Theirs::Diff,
        Ours::Ratio => Theirs::Ratio,
        Ours::NDiff => Theirs::NDiff,
        Ours::LogRatio => Theirs::LogRatio,
    }
}
