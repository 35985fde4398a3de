//! What is found out about a refusal beyond its number.

use crate::edit::Edit;

/// What is said of a refusal in place of the words for all with its number.
#[derive(Default)]
pub struct Finding {
    pub meaning: Option<String>,
    /// Why the library refuses: what stands there, and what would pass.
    pub cause: Option<String>,
    /// What a value must look like here.
    pub expected: Option<String>,
    pub advice: Option<String>,
    /// The mending that the advice asks for, where it can be done without knowing more.
    pub mend: Option<Edit>,
}

impl Finding {
    pub fn cause(cause: impl Into<String>) -> Finding {
        Finding {
            cause: Some(cause.into()),
            ..Finding::default()
        }
    }

    pub fn advice(self, advice: impl Into<String>) -> Finding {
        Finding {
            advice: Some(advice.into()),
            ..self
        }
    }

    pub fn expected(self, expected: Option<String>) -> Finding {
        Finding { expected, ..self }
    }

    pub fn meaning(self, meaning: impl Into<String>) -> Finding {
        Finding {
            meaning: Some(meaning.into()),
            ..self
        }
    }

    /// The advice to do this mending, where there is one; else this advice.
    pub fn mend_or(self, mend: Option<Edit>, advice: impl Into<String>) -> Finding {
        let words = mend.as_ref().map(Edit::words);
        Finding {
            mend,
            ..self.advice(words.unwrap_or_else(|| advice.into()))
        }
    }
}
