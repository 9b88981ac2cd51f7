//! What a report prints: plain lines or JSON.

use super::args::Arguments;
use super::json::Json;
use super::plain;
use crate::names::text;
use crate::output::Output;
use haspeljo::{Ending, Item, Network};
use std::ffi::OsStr;

pub struct Lines<'a, 'o> {
    form: Form<'a>,
    pub out: &'a mut Output<'o>,
}

enum Form<'a> {
    /// With the network for the lines of entries, where these are asked for.
    Plain(Option<Network>),
    Json(Json<'a>),
}

impl<'a, 'o> Lines<'a, 'o> {
    /// Of a capture of this name.
    pub fn new(arguments: &Arguments, name: &'a OsStr, out: &'a mut Output<'o>) -> Lines<'a, 'o> {
        let (network, addresses) = (arguments.network, arguments.addresses);
        let form = if arguments.json {
            Form::Json(Json { file: text(name), network, addresses })
        } else {
            Form::Plain(addresses.then_some(network))
        };
        Lines { form, out }
    }

    /// The line above a report. Objects have the name in them.
    pub fn name(&mut self, name: &OsStr) {
        if let Form::Plain(_) = self.form {
            plain::name(self.out.lines(), name);
        }
    }

    /// That the capture cannot be read, where that is not for standard error alone.
    pub fn unread(&mut self, reason: &str) {
        if let Form::Json(json) = &self.form {
            json.unread(self.out.lines(), reason);
        }
    }

    pub fn item(&mut self, item: &Item) {
        let lines = self.out.lines();
        match &self.form {
            Form::Plain(addresses) => plain::item(lines, item, *addresses),
            Form::Json(json) => json.item(lines, item),
        }
        self.out.settle();
    }

    /// How a session of so many bytes ends.
    pub fn ending(&mut self, ending: &Ending, length: usize) {
        let lines = self.out.lines();
        match (&self.form, ending) {
            (Form::Plain(_), Ending::Clean) => plain::end(lines, length),
            (Form::Plain(_), Ending::Stopped(stop)) => plain::stop(lines, stop),
            (Form::Json(json), Ending::Clean) => json.end(lines, length),
            (Form::Json(json), Ending::Stopped(stop)) => json.stop(lines, stop),
        }
    }
}
