//! Tables in Markdown, and which goals hold.
use std::cell::RefCell;

#[derive(Default)]
pub struct Report {
    goals: RefCell<Vec<(String, f64, f64)>>,
}

impl Report {
    pub fn table(&self, title: &str, columns: &[&str]) {
        println!("\n### {title}\n");
        println!("| {} |", columns.join(" | "));
        println!("|{}", "---|".repeat(columns.len()));
    }

    pub fn row(&self, cells: &[String]) {
        println!("| {} |", cells.join(" | "));
    }

    /// The cells of a goal: what is asked, and whether the ratio holds it.
    pub fn goal(&self, name: &str, ratio: f64, most: f64) -> String {
        self.goals.borrow_mut().push((name.to_string(), ratio, most));
        let held = if ratio <= most { "held" } else { "missed" };
        format!("{most:.1}, {held}")
    }

    /// Goals by name, with the greatest ratio of each.
    pub fn summary(&self) {
        self.table("Goals", &["goal", "at most", "greatest ratio", "rows held"]);
        let goals = self.goals.borrow();
        let mut names: Vec<&str> = vec![];
        for (name, _, _) in goals.iter() {
            if !names.contains(&name.as_str()) {
                names.push(name);
            }
        }
        for name in names {
            let rows: Vec<_> = goals.iter().filter(|goal| goal.0 == name).collect();
            let held = rows.iter().filter(|goal| goal.1 <= goal.2).count();
            let worst = rows.iter().map(|goal| goal.1).fold(0.0, f64::max);
            let held = format!("{} of {}", held, rows.len());
            self.row(&[name.into(), format!("{:.1}", rows[0].2), format!("{worst:.2}"), held]);
        }
    }
}

pub fn ratio(a: f64, b: f64) -> String {
    let ratio = a / b;
    if ratio < 100.0 {
        format!("{ratio:.2}")
    } else {
        format!("{ratio:.0}")
    }
}

/// Nanoseconds, in three digits.
pub fn time(ns: f64) -> String {
    match ns {
        ns if ns < 100.0 => format!("{ns:.1} ns"),
        ns if ns < 1e3 => format!("{ns:.0} ns"),
        ns if ns < 1e5 => format!("{:.2} µs", ns / 1e3),
        ns => format!("{:.0} µs", ns / 1e3),
    }
}
