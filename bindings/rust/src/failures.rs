//! The events of a packet that failed.

use crate::results::{CreateAccountResult, CreateTransferResult};
use crate::Error;
use std::fmt;
use std::ops::Deref;

/// An event that failed, and its result's number.
#[derive(Clone, Copy, Debug, PartialEq, Eq)]
pub struct Failure {
    pub index: u32,
    pub result: u32,
}

/// An account that wasn't created.
#[derive(Clone, Copy, Debug, PartialEq, Eq)]
pub struct CreateAccountsResult {
    pub index: u32,
    pub result: CreateAccountResult,
}

/// A transfer that wasn't created.
#[derive(Clone, Copy, Debug, PartialEq, Eq)]
pub struct CreateTransfersResult {
    pub index: u32,
    pub result: CreateTransferResult,
}

impl fmt::Display for Failure {
    fn fmt(&self, out: &mut fmt::Formatter<'_>) -> fmt::Result {
        write!(out, "event {}: result {}", self.index, self.result)
    }
}

impl fmt::Display for CreateAccountsResult {
    fn fmt(&self, out: &mut fmt::Formatter<'_>) -> fmt::Result {
        write!(out, "account {}: {}", self.index, self.result.name())
    }
}

impl fmt::Display for CreateTransfersResult {
    fn fmt(&self, out: &mut fmt::Formatter<'_>) -> fmt::Result {
        write!(out, "transfer {}: {}", self.index, self.result.name())
    }
}

/// The events of a committed packet that failed: a slice, empty if all succeeded.
#[must_use = "events that failed are only here: look at them, or call `all_created()?`"]
#[derive(Clone, Debug, PartialEq, Eq)]
pub struct Failures<T>(Vec<T>);

impl<T> Failures<T> {
    pub(crate) fn of(failed: impl Iterator<Item = T>) -> Failures<T> {
        Failures(failed.collect())
    }

    /// Returns an error with the failures, if there are any.
    pub fn all_created(self) -> Result<(), Failed<T>> {
        if self.0.is_empty() {
            Ok(())
        } else {
            Err(Failed(self.0))
        }
    }

    /// Returns the failures in a vector.
    #[must_use]
    pub fn into_vec(self) -> Vec<T> {
        self.0
    }
}

impl<T> Deref for Failures<T> {
    type Target = [T];

    fn deref(&self) -> &[T] {
        &self.0
    }
}

impl<T> From<Failures<T>> for Vec<T> {
    fn from(failures: Failures<T>) -> Vec<T> {
        failures.0
    }
}

impl<T> IntoIterator for Failures<T> {
    type Item = T;
    type IntoIter = std::vec::IntoIter<T>;

    fn into_iter(self) -> Self::IntoIter {
        self.0.into_iter()
    }
}

impl<'a, T> IntoIterator for &'a Failures<T> {
    type Item = &'a T;
    type IntoIter = std::slice::Iter<'a, T>;

    fn into_iter(self) -> Self::IntoIter {
        self.0.iter()
    }
}

/// One or more events of a committed packet failed. Those that aren't here succeeded.
#[derive(Clone, Debug, PartialEq, Eq)]
pub struct Failed<T>(Vec<T>);

impl<T> Failed<T> {
    /// Returns the events that failed: at least one.
    pub fn failures(&self) -> &[T] {
        &self.0
    }
}

/// Shows how many events failed, and the first of them.
pub(crate) fn show(out: &mut fmt::Formatter<'_>, count: usize, first: &impl fmt::Display) -> fmt::Result {
    let more = if count > 1 { ", .." } else { "" };
    write!(out, "{count} failed: {first}{more}")
}

impl<T: fmt::Display> fmt::Display for Failed<T> {
    fn fmt(&self, out: &mut fmt::Formatter<'_>) -> fmt::Result {
        show(out, self.0.len(), &self.0[0])
    }
}

impl<T: fmt::Debug + fmt::Display> std::error::Error for Failed<T> {}

impl From<Failed<CreateAccountsResult>> for Error {
    fn from(failed: Failed<CreateAccountsResult>) -> Error {
        Error::AccountsFailed {
            count: failed.0.len(),
            first: failed.0[0],
        }
    }
}

impl From<Failed<CreateTransfersResult>> for Error {
    fn from(failed: Failed<CreateTransfersResult>) -> Error {
        Error::TransfersFailed {
            count: failed.0.len(),
            first: failed.0[0],
        }
    }
}

impl From<Failed<Failure>> for Error {
    fn from(failed: Failed<Failure>) -> Error {
        Error::EventsFailed {
            count: failed.0.len(),
            first: failed.0[0],
        }
    }
}
