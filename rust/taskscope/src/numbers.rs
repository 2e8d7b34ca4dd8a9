//! The numbers of a console, as Prometheus reads them: sums by place of all that has been, and what is there.
//!
//! The text is that of `taskscope metrics --by place` for the console's own stream, but for the families that only a reader of the
//! stream knows: findings, and how many lines there are.

mod families;
mod labels;
mod series;
mod sums;
mod text;

use crate::fault::Fault;
use crate::item::Item;
use crate::resource::ResourceCell;
use crate::task::{TaskCell, TaskWords};
use series::{Series, Shown};
use sums::{PollOps, Sums, Warnings};
use text::Text;

/// What has left, by place.
#[derive(Debug, Default)]
pub(crate) struct Left {
    /// Room for the labels of one item.
    labels: Text,
    tasks: Series<Sums>,
    resources: Series<PollOps>,
}

impl Left {
    /// Adds a task that has left, with its words in the last line that had it.
    pub(crate) fn add_task(&mut self, task: &TaskCell, words: &TaskWords) {
        let labels = self.labels.rewrite(|text| labels::of_task(text, task));
        self.tasks.leave(labels.ok(), &Sums::of_left(words));
    }

    /// Adds a resource that has left, with its last poll counts: ready, pending.
    pub(crate) fn add_resource(&mut self, resource: &ResourceCell, counts: [u64; 2]) {
        let labels = self.labels.rewrite(|text| labels::of_resource(text, resource));
        self.resources.leave(labels.ok(), &PollOps(counts));
    }

    /// Begins the numbers of a moment, to which what is there is to be added.
    pub(crate) fn numbers(&mut self, moment: u64) -> Result<Numbers<'_>, Fault> {
        Ok(Numbers {
            labels: &mut self.labels,
            tasks: self.tasks.read()?,
            resources: self.resources.read()?,
            warnings: Warnings::default(),
            moment,
        })
    }
}

/// Which histograms the tasks of a console have.
#[derive(Clone, Copy, Debug, Default, PartialEq, Eq)]
pub(crate) struct Histograms {
    /// Of how long polls ran.
    pub(crate) polls: bool,
    /// Of how long waits took.
    pub(crate) waits: bool,
}

/// The numbers of one moment. Each of its calls fails for want of memory alone.
#[derive(Debug)]
pub(crate) struct Numbers<'a> {
    labels: &'a mut Text,
    tasks: Shown<'a, Sums>,
    resources: Shown<'a, PollOps>,
    warnings: Warnings,
    moment: u64,
}

impl Numbers<'_> {
    pub(crate) fn add_task(&mut self, task: &TaskCell) -> Result<(), Fault> {
        let words = task.row().now();
        self.warnings.add(task.kind, &words, self.moment);
        let labels = self.labels.rewrite(|text| labels::of_task(text, task))?;
        self.tasks.add(labels, &Sums::at(&words, self.moment))
    }

    pub(crate) fn add_resource(&mut self, resource: &ResourceCell) -> Result<(), Fault> {
        let labels = self.labels.rewrite(|text| labels::of_resource(text, resource))?;
        self.resources.add(labels, &PollOps(resource.counts.row().now()))
    }

    /// The text, with how many tasks, resources and operations were dropped.
    pub(crate) fn text(self, dropped: [u64; 3], histograms: Histograms) -> Result<Vec<u8>, Fault> {
        let (tasks, resources) = (self.tasks.samples()?, self.resources.samples()?);
        let mut text = Text::default();
        let write = |text: &mut Text| {
            families::tasks(text, &tasks)?;
            families::resources(text, &resources)?;
            families::rest(text, self.warnings.0, dropped, self.moment)?;
            families::histograms(text, &tasks, histograms)
        };
        text.rewrite(write)?;
        Ok(text.into_bytes())
    }
}
