//! One row of a table: the same work by the engine and the second interpreter, or calls for
//! the same image by the engine: its check, its needs and its page, or its run and its ranges.

pub struct Race {
    pub name: &'static str,
    /// What a time is divided by: the nodes of a check, the steps of a run.
    pub units: u64,
    /// Nanoseconds a call.
    pub engine: f64,
    pub second: f64,
}

/// Races with the time for each unit and how many times longer the second
/// interpreter takes.
pub fn table(title: &str, units: &str, races: &[Race]) -> String {
    let mut text = format!("{title}\n");
    let (engine, second, ratio) = ("engine", "second", "second/engine");
    text += &format!("  {:<36} {units:>7} {engine:>9} {second:>9} {ratio:>14}\n", "");
    for Race { name, units, engine, second } in races {
        let count = *units as f64;
        let ratio = second / engine;
        let (engine, second) = (engine / count, second / count);
        text += &format!("  {name:<36} {units:>7} {engine:>9.2} {second:>9.2} {ratio:>14.2}\n");
    }
    text
}

/// The check, the needs and the page of one image.
pub struct Beside {
    pub name: &'static str,
    pub nodes: u32,
    /// Nanoseconds a call.
    pub check: f64,
    pub needs: f64,
    pub page: f64,
}

impl Beside {
    /// How many times longer the needs take than the check.
    pub fn needs_ratio(&self) -> f64 {
        self.needs / self.check
    }

    /// How many times longer the page takes than the check.
    pub fn page_ratio(&self) -> f64 {
        self.page / self.check
    }
}

/// The needs may take so many times longer than the check.
pub const MOST_RATIO: f64 = 2.0;

/// The calls of each image with the time for each node, which is a line of the page, how
/// many times longer than the check the others take, and whether that is asked for of the
/// needs.
pub fn beside_table(all: &[Beside]) -> String {
    let mut text =
        "needs and page beside check, nanoseconds a node, a line of the page\n".to_string();
    let (name, nodes, check, needs, page) = ("", "nodes", "check", "needs", "page");
    let (needs_ratio, page_ratio) = ("needs/check", "page/check");
    text += &format!(
        "  {name:<36} {nodes:>7} {check:>9} {needs:>9} {needs_ratio:>12} {page:>9} {page_ratio:>11}\n"
    );
    for beside in all {
        let Beside { name, nodes, check, needs, page } = beside;
        let count = f64::from(*nodes);
        let [check, needs, page] = [check, needs, page].map(|time| time / count);
        let (needs_ratio, page_ratio) = (beside.needs_ratio(), beside.page_ratio());
        text += &format!("  {name:<36} {nodes:>7} {check:>9.2} {needs:>9.2} {needs_ratio:>12.2} ");
        text += &format!("{page:>9.2} {page_ratio:>11.2}\n");
    }
    let within = all.iter().all(|beside| beside.needs_ratio() <= MOST_RATIO);
    let within = if within { "yes" } else { "NO" };
    text + &format!("  at most {MOST_RATIO:.0} is asked of the needs: {within}\n")
}

/// The run and the ranges of one routine.
pub struct BesideRun {
    pub name: &'static str,
    /// Those of the run.
    pub steps: u64,
    /// Nanoseconds a call.
    pub run: f64,
    pub ranges: f64,
}

/// Run and ranges with the time for each step of the run, and how many times longer the
/// ranges take.
pub fn ranges_table(all: &[BesideRun]) -> String {
    let mut text = "ranges beside run, nanoseconds a step of the run\n".to_string();
    let (name, steps, run, ranges, ratio) = ("", "steps", "run", "ranges", "ranges/run");
    text += &format!("  {name:<36} {steps:>7} {run:>9} {ranges:>9} {ratio:>12}\n");
    for BesideRun { name, steps, run, ranges } in all {
        let ratio = ranges / run;
        let [run, ranges] = [run, ranges].map(|time| time / *steps as f64);
        text += &format!("  {name:<36} {steps:>7} {run:>9.2} {ranges:>9.2} {ratio:>12.2}\n");
    }
    text
}
