//! What a file says of a band, and whether that lets the band be used as what it is to be.

use crate::elements::{Kind, Layout};

/// What the elements are to be.
#[derive(Clone, Copy, PartialEq, Eq)]
pub enum Role {
    Decibels { as_decibels: bool },
    Intensities,
    Numbers,
    Marks,
    Greys,
}

/// What a file says of a band, as far as it decides how the band may be used.
#[derive(Clone, Debug, Default)]
pub struct Said {
    pub is_complex: bool,
    pub has_palette: bool,
    pub is_inverted: bool,
    pub bits: usize,
    pub unit: String,
    pub descriptions: Vec<String>,
    pub scale: f64,
    pub offset: f64,
    /// Where the raster's own mask of the band comes from; none where it has none, and an error where it is not clear.
    pub mask: Option<Result<String, String>>,
}

impl Said {
    /// Why the elements cannot be what they are to be, by what the file says.
    pub fn judge(&self, layout: Option<Layout>, role: Role) -> Result<(), String> {
        let bad = |what: String| Err(what);
        if self.is_complex {
            return bad("complex numbers; take their size and turn it into decibels first (10 log10 of the power)".into());
        }
        let Some(Layout { kind, .. }) = layout else { return bad("an element type that is not read".into()) };
        if let (false, Some((scale, offset))) = (matches!(role, Role::Decibels { .. }), self.scaling()) {
            return bad(format!("its band has scale {scale} and offset {offset}; apply them first (gdal_translate -unscale)"));
        }
        match role {
            Role::Decibels { as_decibels } => {
                if self.has_palette && !self.is_inverted {
                    return bad("its numbers are colours of a palette, not decibels".into());
                }
                if !as_decibels {
                    if let Some(word) = self.other_than_decibels() {
                        return bad(format!(
                            "its file says '{word}', which is not decibels; turn it into decibels first (10 log10 of the power), or give \
                             --as-decibels if it has them"
                        ));
                    }
                }
                Ok(())
            }
            Role::Intensities if self.says_decibels() => bad("its file says decibels; the marks are taken from intensities".into()),
            Role::Intensities | Role::Numbers => Ok(()),
            Role::Marks if self.is_inverted => {
                bad("0 is white in it (MINISWHITE), so what 1 means is not clear; write it as MINISBLACK".into())
            }
            Role::Marks => Ok(()),
            Role::Greys if self.has_palette => bad("its numbers are colours of a palette; grey of 8 or 16 bits is read".into()),
            Role::Greys if self.is_inverted => bad("0 is white in it (MINISWHITE); write it as MINISBLACK".into()),
            Role::Greys if !matches!(kind, Kind::U8 | Kind::U16) || !self.bits.is_multiple_of(8) => {
                let bits = if !self.bits.is_multiple_of(8) { format!("{} bits", self.bits) } else { kind.name().to_string() };
                bad(format!("elements are {bits}; grey of 8 or 16 bits (u1, u2) is read"))
            }
            Role::Greys => Ok(()),
        }
    }

    /// The scale and offset, where they change anything.
    pub fn scaling(&self) -> Option<(f64, f64)> {
        if self.scale == 1.0 && self.offset == 0.0 { None } else { Some((self.scale, self.offset)) }
    }

    /// Words of the unit and the descriptions, in small letters.
    fn words(text: &str) -> Vec<String> {
        text.split(|c: char| !c.is_alphanumeric()).filter(|word| !word.is_empty()).map(str::to_lowercase).collect()
    }

    fn is_decibel(word: &str) -> bool {
        matches!(word, "db" | "decibel" | "decibels")
    }

    fn says_decibels(&self) -> bool {
        std::iter::once(&self.unit).chain(&self.descriptions).any(|text| Self::words(text).iter().any(|word| Self::is_decibel(word)))
    }

    /// What the unit or a description says that is not decibels.
    fn other_than_decibels(&self) -> Option<&str> {
        const BESIDE: [&str; 8] = ["intensity", "backscatter", "sigma0", "sigma", "gamma0", "gamma", "beta0", "beta"];
        const LINEAR: [&str; 8] = ["intensity", "amplitude", "power", "linear", "magnitude", "phase", "grd", "slc"];
        let unit = Self::words(&self.unit);
        let is_plain = unit.iter().all(|word| Self::is_decibel(word) || BESIDE.contains(&word.as_str()));
        let is_decibels = is_plain && unit.iter().any(|word| Self::is_decibel(word));
        if !self.unit.trim().is_empty() && !is_decibels {
            return Some(&self.unit);
        }
        self.descriptions.iter().map(String::as_str).find(|text| {
            let words = Self::words(text);
            words.iter().any(|word| LINEAR.contains(&word.as_str())) && !words.iter().any(|word| Self::is_decibel(word))
        })
    }
}
