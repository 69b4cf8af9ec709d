//! The plans of a folder, each compared and timed alone.
use std::path::Path;
use std::{fs, io};

use oracle::cpu_time::{NO_ROUND, Round, least};
use oracle::run::Stop;

use crate::asked::{Asked, Expected, expected, pattern};
use crate::turns::{Outputs, TURN, each};

/// make_worst.py makes these.
pub const FOLDER: &str = concat!(env!("CARGO_MANIFEST_DIR"), "/worst");
/// So often all plans are gone through, with so many rounds for each.
pub const PASSES: usize = 8;
pub const ROUNDS: usize = 3;

struct Plan {
    name: String,
    sheet: Vec<u8>,
    expected: Expected,
    agrees: bool,
    /// The least so far.
    times: Round,
}

/// One for each file of the folder, by name.
fn plans(folder: &Path) -> io::Result<Vec<Plan>> {
    let mut plans = vec![];
    for entry in fs::read_dir(folder)? {
        let path = entry?.path();
        if path.is_file() {
            let name = path.file_name().unwrap_or_default().to_string_lossy().into_owned();
            let sheet = fs::read(path)?;
            let expected = expected(&sheet);
            plans.push(Plan { name, sheet, expected, agrees: false, times: NO_ROUND });
        }
    }
    if plans.is_empty() {
        return Err(io::Error::new(io::ErrorKind::NotFound, "there is no plan"));
    }
    plans.sort_by(|one, other| one.name.cmp(&other.name));
    Ok(plans)
}

/// Holds every plan to the Rust's answer; how many differ.
fn check(plans: &mut [Plan]) -> u64 {
    let pattern = pattern();
    let mut out = pattern.clone();
    let mut different = 0;
    for (plan, number) in plans.iter_mut().zip(0..) {
        let Plan { name, sheet, expected, .. } = &*plan;
        let asked = Asked { name, number, sheet, expected, pattern: &pattern };
        plan.agrees = asked.all_agree(&mut out, different == 0);
        different += u64::from(!plan.agrees);
    }
    different
}

/// In several passes, so that a busy moment of the machine does not meet all rounds of a plan; several rounds at a time, since
/// the first finds nothing prepared.
fn time(plans: &mut [Plan]) {
    let mut outputs = Outputs::new();
    for _ in 0..PASSES {
        for plan in &mut *plans {
            for _ in 0..ROUNDS {
                plan.times = least(plan.times, outputs.round(&[plan.sheet.as_slice(); TURN]));
            }
        }
    }
}

impl Plan {
    /// Nanoseconds for a call by the Rust and by the port.
    fn calls(&self) -> [f64; 2] {
        self.times.map(|time| each(time, TURN as u64))
    }

    fn ratio(&self) -> f64 {
        let [rust, port] = self.calls();
        port / rust
    }

    /// The visits and looks of the T line, or the refusal.
    fn answer(&self) -> String {
        match &self.expected {
            Ok(finished) => {
                let text = String::from_utf8_lossy(&finished.text);
                let mut numbers = text.trim_end().rsplit(',');
                let (looks, visits) = (numbers.next().unwrap_or(""), numbers.next().unwrap_or(""));
                format!("{visits} visits, {looks} looks")
            },
            Err(Stop::Refused(number)) => format!("R,{number}"),
            Err(Stop::Panicked(_)) => "the Rust panicked".to_string(),
        }
    }

    fn print(&self, width: usize) {
        let [rust, port] = self.calls();
        let (name, answer, ratio) = (&self.name, self.answer(), self.ratio());
        let end = if self.agrees { "" } else { ", differs" };
        println!("{name:width$}  {answer:23}  Rust {rust:6.0} ns, port {port:6.0}, ratio {ratio:.2}{end}");
    }
}

/// How many differ.
pub fn compare(folder: &Path) -> io::Result<u64> {
    let mut plans = plans(folder)?;
    let different = check(&mut plans);
    time(&mut plans);

    let width = plans.iter().map(|plan| plan.name.len()).max().unwrap_or(0);
    for plan in &plans {
        plan.print(width);
    }
    if let Some(worst) = plans.iter().max_by(|one, other| one.ratio().total_cmp(&other.ratio())) {
        println!(
            "{} plans compared with three papers each, {different} differences; greatest ratio {:.2}, {} (CPU time, least of {} \
             rounds of {TURN} calls)",
            plans.len(),
            worst.ratio(),
            worst.name,
            PASSES * ROUNDS
        );
    }
    Ok(different)
}
