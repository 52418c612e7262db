//! Stands for the diagnostics: the one message that the builder gives, and a number's text, which no program has.
#[derive(Copy, Clone, Debug, PartialEq, Eq)]
pub enum LanguageMessage {
    WriteToOtherMob,
}

pub fn fixed6(v: f32) -> String {
    format!("{v:.6}")
}
