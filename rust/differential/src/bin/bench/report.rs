//! The tables of all measurements, and in front of them which goals are met.

/// Rows are collected, and printed when everything is measured.
#[derive(Default)]
pub struct Report {
    tables: Vec<Table>,
    goals: Vec<Goal>,
}

struct Table {
    head: Vec<&'static str>,
    rows: Vec<Vec<String>>,
}

/// A ratio of a row, and the greatest that is wanted of it.
struct Goal {
    row: String,
    of: &'static str,
    found: f64,
    most: f64,
}

impl Goal {
    fn met(&self) -> bool {
        self.found <= self.most
    }

    /// What kind of work it is a goal of: the row's name up to its first comma.
    fn work(&self) -> &str {
        self.row.split(',').next().unwrap_or(&self.row)
    }
}

impl Report {
    /// Begins a table. Its last column says whether goals are met.
    pub fn table(&mut self, head: &[&'static str]) {
        self.tables.push(Table { head: [head, &["goal"]].concat(), rows: Vec::new() });
    }

    /// A row of the last table, but for its last cell. Each goal is what the ratio is of, the ratio and the greatest that is wanted.
    pub fn row(&mut self, cells: Vec<String>, goals: &[(&'static str, f64, f64)]) {
        let name = cells[0].clone();
        let goals: Vec<Goal> = goals.iter().map(|&(of, found, most)| Goal { row: name.clone(), of, found, most }).collect();
        let said: Vec<String> = goals.iter().map(|goal| format!("{} of {}", goal.most, goal.of)).collect();
        let verdict = match (goals.is_empty(), goals.iter().all(Goal::met)) {
            (true, _) => "none".to_owned(),
            (_, true) => said.join(", ") + ": met",
            (_, false) => said.join(", ") + ": missed",
        };
        self.goals.extend(goals);
        let table = self.tables.last_mut().expect("a table was begun");
        let cells = [cells, vec![verdict]].concat();
        assert_eq!(cells.len(), table.head.len(), "{name}: as many cells as its table's head");
        table.rows.push(cells);
    }

    pub fn print(&self) {
        self.print_goals();
        for table in self.tables.iter().filter(|table| !table.rows.is_empty()) {
            println!("\n| {} |\n|{}", table.head.join(" | "), "---|".repeat(table.head.len()));
            table.rows.iter().for_each(|cells| println!("| {} |", cells.join(" | ")));
        }
    }

    /// For each kind of work and each goal of it how many rows meet it and the greatest ratio; then every row that does not.
    fn print_goals(&self) {
        let missed: Vec<&Goal> = self.goals.iter().filter(|goal| !goal.met()).collect();
        println!("goals: {} met, {} missed", self.goals.len() - missed.len(), missed.len());
        let mut kinds: Vec<(&str, &str, f64)> = Vec::new();
        for goal in &self.goals {
            let kind = (goal.work(), goal.of, goal.most);
            if !kinds.contains(&kind) {
                kinds.push(kind);
            }
        }
        for (work, of, most) in kinds {
            let rows: Vec<&Goal> = self.goals.iter().filter(|goal| (goal.work(), goal.of, goal.most) == (work, of, most)).collect();
            let met = rows.iter().filter(|goal| goal.met()).count();
            let greatest = rows.iter().map(|goal| goal.found).fold(0.0, f64::max);
            println!("  {work}: {met} of {} rows at most {most} of {of}; the greatest {greatest:.2}", rows.len());
        }
        missed.iter().for_each(|goal| println!("missed: {}: {:.2} of {}, wanted at most {}", goal.row, goal.found, goal.of, goal.most));
    }
}
