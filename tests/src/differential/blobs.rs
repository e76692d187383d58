//! The blobs of a case's table, asked for beside the model.

use super::arguments::{any_of, any_record};
use super::difference::Run;
use super::question::{Memory, Question, Subject};
use crate::model::Table;

/// Questions of a case whose table has blobs; of another, one.
const BLOBS: usize = 8;

impl Memory {
    /// Asks for some blobs, first of all for the one that is worth it, if there is one.
    pub fn ask_blobs(&mut self, run: &mut Run, subject: &Subject) {
        if let Some((block, place, field)) = run.case.blob {
            let question = Question::Blob {
                block,
                place,
                field,
            };
            self.ask_any(run, subject, question);
        }
        let fields = subject.read.as_ref().map(Table::blob_fields);
        let fields = fields.unwrap_or_default();
        let questions = if fields.is_empty() { 1 } else { BLOBS };
        for _ in 0..questions {
            let field = any_of(&fields, &subject.read, &mut run.random);
            let (block, place) = any_record(&subject.read, &mut run.random);
            let question = Question::Blob {
                block,
                place,
                field,
            };
            self.ask_any(run, subject, question);
        }
    }
}
