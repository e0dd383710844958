//! A stand-in for the `ariadne` crate: as much as `eon_syntax` names.
//!
//! Reports are not drawn. A report prints its messages with their places, one a line.

use std::fmt::Display;
use std::io::{self, Write};
use std::marker::PhantomData;

/// A range in a source.
pub trait Span {
    type SourceId: ?Sized;

    fn source(&self) -> &Self::SourceId;
    fn start(&self) -> usize;
    fn end(&self) -> usize;
}

/// The text that a report is about. Nothing is drawn from it, so it only keeps the text.
pub struct Source {
    pub text: String,
}

impl From<String> for Source {
    fn from(text: String) -> Self {
        Self { text }
    }
}

#[derive(Clone, Copy, Debug)]
pub enum ReportKind {
    Error,
}

#[derive(Clone, Copy, Debug, Default)]
pub struct Config;

impl Config {
    pub fn with_color(self, _color: bool) -> Self {
        self
    }
}

pub struct Label<S> {
    span: S,
    message: String,
}

impl<S: Span> Label<S> {
    pub fn new(span: S) -> Self {
        Self {
            span,
            message: String::new(),
        }
    }

    pub fn with_message(mut self, message: impl Display) -> Self {
        self.message = message.to_string();
        self
    }
}

/// The lifetime is there because the original has one.
pub struct Report<'a, S> {
    labels: Vec<Label<S>>,
    lifetime: PhantomData<&'a ()>,
}

impl<'a, S: Span> Report<'a, S> {
    pub fn build(_kind: ReportKind, _span: S) -> ReportBuilder<'a, S> {
        ReportBuilder {
            report: Report {
                labels: Vec::new(),
                lifetime: PhantomData,
            },
        }
    }

    pub fn write(&self, _source: &Source, mut out: impl Write) -> io::Result<()> {
        for label in &self.labels {
            let (start, end) = (label.span.start(), label.span.end());
            writeln!(out, "Error at {start}..{end}: {}", label.message)?;
        }
        Ok(())
    }
}

pub struct ReportBuilder<'a, S> {
    report: Report<'a, S>,
}

impl<'a, S: Span> ReportBuilder<'a, S> {
    pub fn with_label(mut self, label: Label<S>) -> Self {
        self.report.labels.push(label);
        self
    }

    pub fn with_config(self, _config: Config) -> Self {
        self
    }

    pub fn finish(self) -> Report<'a, S> {
        self.report
    }
}
