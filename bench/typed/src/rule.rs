//! The four rules.
use serde::Deserialize;

/// A rule. Its name is the same in requests, replies and journals.
#[derive(Deserialize, Clone, Copy, PartialEq, Eq)]
#[serde(rename_all = "lowercase")]
pub enum Rule {
    Update,
    Marriage,
    Seduction,
    Abandonment,
}

impl Rule {
    /// Returns the name of the rule.
    #[inline]
    pub fn name(self) -> &'static str {
        match self {
            Rule::Update => "update",
            Rule::Marriage => "marriage",
            Rule::Seduction => "seduction",
            Rule::Abandonment => "abandonment",
        }
    }

    /// Returns the rule with this name.
    pub fn named(name: &str) -> Option<Rule> {
        let all = [Rule::Update, Rule::Marriage, Rule::Seduction, Rule::Abandonment];
        all.into_iter().find(|rule| rule.name() == name)
    }
}
