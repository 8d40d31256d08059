//! Plans to sweep: their files for the program, and what document 01 says of them, worked out by the model.
use cases::{catalogue::positions, plans::direction, Seeded};
use model::{catalogue::radec_to_unit, journal::Sweep, plan::Rolls, Plan};
use std::{fmt::Write, fs, path::Path};

pub struct Case {
    pub name: &'static str,
    pub sweep: Sweep,
    pub times: Vec<i64>,
    /// Right ascensions and declinations, where the targets file has those in place of vectors.
    positions: Option<(Vec<f64>, Vec<f64>)>,
    given: Given,
}

/// How the plan's files give its tolerances.
#[derive(Clone, Copy)]
pub enum Given {
    Number(f64),
    List,
    Column,
}

/// How the first line of targets by right ascension and declination begins.
pub const CATALOGUE_HEAD: &str = "name,ra,dec";

const FIRST_TIME: i64 = 1_774_000_000_000_000_000;
const STEP: i64 = 60_000_000_000;

impl Case {
    fn new(name: &'static str, plan: Plan, given: Given) -> Case {
        let times = (0..plan.times() as i64).map(|j| FIRST_TIME + STEP * j).collect();
        Case { name, sweep: Sweep::new(plan).expect("an accepted plan"), times, positions: None, given }
    }
    /// Document 01's example.
    pub fn example() -> Case {
        let plan = Plan {
            targets: vec![1.0, 0.0, 0.0],
            suns: vec![0.0, 1.0, 0.0, 0.0, 0.0, 1.0],
            observers: vec![0.0; 6],
            tolerances: vec![10.0],
            roll_deg: None,
            panels: vec![0.0, 1.0, 0.0],
            rolls: Rolls::Even(1),
        };
        Case::new("document 01's example", plan, Given::Number(10.0))
    }
    /// Random directions, and Suns that turn slowly, so that marks come in runs.
    pub fn drawn(name: &'static str, seed: u64, targets: usize, times: usize, n: u64, tolerance_deg: f64, roll_deg: Option<f64>) -> Case {
        let mut seeded = Seeded::new(seed);
        let (tolerances, panels, rolls) = (vec![tolerance_deg; targets], vec![0.0, 1.0, 0.25], Rolls::Even(n));
        let mut plan = Plan { tolerances, roll_deg, panels, rolls, ..Plan::default() };
        for _ in 0..targets {
            plan.targets.extend(direction(&mut seeded));
        }
        for j in 0..times {
            let (s, c) = (j as f64 * 0.013).sin_cos();
            plan.suns.extend([1.5e8 * c, 1.4e8 * s, 0.6e8 * s]);
            plan.observers.extend(direction(&mut seeded).map(|x| 7000.0 * x));
        }
        Case::new(name, plan, Given::Number(tolerance_deg))
    }
    /// The same with other targets, by right ascension and declination; their vectors are the model's.
    pub fn of_catalogue(self, seed: u64) -> Case {
        let mut plan = self.sweep.plan;
        let (ra, dec) = positions(&mut Seeded::new(seed), plan.rows());
        plan.targets = ra.iter().zip(&dec).flat_map(|(&ra, &dec)| radec_to_unit(ra, dec)).collect();
        Case { positions: Some((ra, dec)), ..Case::new(self.name, plan, self.given) }
    }
    /// The same over a table of rolls. Over as many even steps the sweep would be another.
    pub fn over(self, table: &[f64]) -> Case {
        let plan = Plan { rolls: Rolls::Table(table.to_vec()), ..self.sweep.plan };
        let stepped = Sweep::new(plan.stepped()).expect("an accepted plan");
        let case = Case { positions: self.positions, ..Case::new(self.name, plan, self.given) };
        assert!(case.sweep.mask != stepped.mask, "{}: rolls that mark alike", case.name);
        case
    }
    pub fn has_table(&self) -> bool {
        self.sweep.plan.rolls.table().is_some()
    }
    /// The same with a tolerance for each target: these, over and over. With the first for all of them the sweep would be another.
    pub fn with_tolerances(self, given: Given, tolerances: &[f64]) -> Case {
        let mut plan = self.sweep.plan.clone();
        plan.tolerances = tolerances.iter().copied().cycle().take(plan.rows()).collect();
        let one = Plan { tolerances: vec![plan.tolerances[0]; plan.rows()], ..plan.clone() };
        let case = Case { positions: self.positions, ..Case::new(self.name, plan, given) };
        assert!(case.sweep.mask != Sweep::new(one).expect("an accepted plan").mask, "{}: tolerances that mark alike", case.name);
        case
    }
    pub fn has_tolerances(&self) -> bool {
        !matches!(self.given, Given::Number(_))
    }
    pub fn chunks(&self) -> usize {
        self.sweep.chunks()
    }
    /// Writes plan.toml, targets.csv and ephemeris.csv into a folder. A number is written so that it reads as itself.
    pub fn write(&self, folder: &Path) {
        let plan = &self.sweep.plan;
        let mut toml = String::from("targets = \"targets.csv\"\nephemeris = \"ephemeris.csv\"\n");
        let _ = match &plan.rolls {
            Rolls::Even(n) => writeln!(toml, "rolls = {}", n),
            Rolls::Table(table) => writeln!(toml, "rolls = {:?}", table),
        };
        let _ = writeln!(toml, "panel = {:?}", plan.head_panel());
        let list: Vec<_> = plan.tolerances.iter().copied().map(toml_number).collect();
        let (mut column, mut cells) = ("", vec![String::new(); plan.rows()]);
        let _ = match self.given {
            Given::Number(x) => writeln!(toml, "tolerance = {}", toml_number(x)),
            Given::List => writeln!(toml, "tolerance = [{}]", list.join(", ")),
            Given::Column => {
                (column, cells) = (",tolerance", list.iter().map(|cell| format!(",{}", cell)).collect());
                Ok(())
            }
        };
        if let Some(roll) = plan.roll_deg {
            let _ = writeln!(toml, "configured_roll = {}", toml_number(roll));
        }
        let mut targets = format!("{}{}\n", if self.positions.is_some() { CATALOGUE_HEAD } else { "name,x,y,z" }, column);
        for (i, cell) in cells.iter().enumerate() {
            let [x, y, z] = plan.target(i);
            let _ = match &self.positions {
                Some((ra, dec)) => writeln!(targets, "T{},{:?},{:?}{}", i, ra[i], dec[i], cell),
                None => writeln!(targets, "T{},{:?},{:?},{:?}{}", i, x, y, z, cell),
            };
        }
        let mut ephemeris = String::from("time,sun_x,sun_y,sun_z,observer_x,observer_y,observer_z\n");
        for j in 0..plan.times() {
            let ([a, b, c], [d, e, f]) = (plan.sun(j), plan.observer(j));
            let _ = writeln!(ephemeris, "{},{:?},{:?},{:?},{:?},{:?},{:?}", self.clock(j), a, b, c, d, e, f);
        }
        fs::create_dir_all(folder).unwrap();
        fs::write(folder.join("plan.toml"), toml).unwrap();
        fs::write(folder.join("targets.csv"), targets).unwrap();
        fs::write(folder.join("ephemeris.csv"), ephemeris).unwrap();
    }
    /// The time of sample j; FIRST_TIME is 2026-03-20T09:46:40Z, and plans stay within that month.
    fn clock(&self, j: usize) -> String {
        let seconds = (self.times[j] - FIRST_TIME) / 1_000_000_000 + 9 * 3600 + 46 * 60 + 40;
        let (day, of_day) = (20 + seconds / 86_400, seconds % 86_400);
        assert!(day <= 31);
        format!("2026-03-{:02}T{:02}:{:02}:{:02}.000000000Z", day, of_day / 3600, of_day / 60 % 60, of_day % 60)
    }
    /// The windows of the whole sweep as the program's CSV has them.
    pub fn windows_csv(&self) -> String {
        let mut csv = String::from("target,kind,first_sample,last_sample,start,end,seconds,severity_deg,data_end,target_number\n");
        let times = self.times.len();
        let room = [times; 6];
        for i in 0..self.sweep.plan.rows() {
            let mask = &self.sweep.mask[i * times..(i + 1) * times];
            let visible = model::windows::visibility_windows(mask, &self.times, room).unwrap();
            let violated = model::windows::violation_windows(mask, &self.times, &vec![0.0; times], room).unwrap();
            let mut all: Vec<_> = visible.iter().map(|w| ("visible", w)).chain(violated.iter().map(|w| ("violated", w))).collect();
            all.sort_by_key(|(_, w)| w.first);
            for (kind, w) in all {
                let (start, end) = (self.clock(w.first as usize), self.clock(w.last as usize));
                let seconds = (w.last_time - w.first_time) / 1_000_000_000;
                let _ = writeln!(csv, "T{},{},{},{},{},{},{},0,{},{}", i, kind, w.first, w.last, start, end, seconds, w.is_last, i + 1);
            }
        }
        csv
    }
}

fn toml_number(x: f64) -> String {
    if x.is_nan() {
        "nan".into()
    } else if x.is_infinite() {
        if x > 0.0 { "inf" } else { "-inf" }.into()
    } else {
        format!("{:?}", x)
    }
}
