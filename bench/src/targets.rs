//! What the times are held to: bounds on ratios, each with the worst ratio that was found. They are printed and nothing
//! more, since figures need an idle machine.

pub struct Target {
    what: &'static str,
    most: f64,
    worst: Option<(f64, &'static str)>,
}

impl Target {
    pub fn new(what: &'static str, most: f64) -> Target {
        Target {
            what,
            most,
            worst: None,
        }
    }

    /// Takes in the ratio of one workload.
    pub fn meet(&mut self, ratio: f64, workload: &'static str) {
        if self.worst.is_none_or(|(worst, _)| ratio > worst) {
            self.worst = Some((ratio, workload));
        }
    }

    pub fn print(&self) {
        let Target { what, most, .. } = self;
        match self.worst {
            None => println!("{what}, at most {most} times: not measured"),
            Some((worst, workload)) => {
                let outcome = if worst <= *most { "reached" } else { "missed" };
                println!("{what}, at most {most} times: {outcome}, the worst is {worst:.2} ({workload})");
            }
        }
    }
}
