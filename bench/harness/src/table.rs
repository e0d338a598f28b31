//! Tables in Markdown, aligned so that they can be read as they are.
use std::fmt::{Display, Formatter, Result};

/// Rows of cells, the first row the heads.
pub struct Table(Vec<Vec<String>>);

impl Table {
    pub fn new<T: Display>(heads: &[T]) -> Table {
        Table(vec![heads.iter().map(T::to_string).collect()])
    }

    /// Adds a row; what is missing at its end stays empty.
    pub fn push(&mut self, mut row: Vec<String>) {
        row.resize(self.0[0].len(), String::new());
        self.0.push(row);
    }
}

/// The first column stands to the left, the others to the right.
impl Display for Table {
    fn fmt(&self, out: &mut Formatter) -> Result {
        let widths: Vec<usize> = (0..self.0[0].len()).map(|at| self.0.iter().map(|row| row[at].chars().count()).max().unwrap_or(0)).collect();
        for (number, row) in self.0.iter().enumerate() {
            for (at, (cell, &width)) in row.iter().zip(&widths).enumerate() {
                if at == 0 { write!(out, "| {cell:width$} |")? } else { write!(out, " {cell:>width$} |")? }
            }
            writeln!(out)?;
            if number == 0 {
                write!(out, "|{}|", "-".repeat(widths[0] + 2))?;
                widths[1..].iter().try_for_each(|width| write!(out, "{}:|", "-".repeat(width + 1)))?;
                writeln!(out)?;
            }
        }
        Ok(())
    }
}

/// The heads of a table that compares readers: `first`, the readers' names, and the ratio of the last reader to each other one.
pub fn heads(first: &[&str], names: &[&'static str]) -> Vec<String> {
    let mut heads: Vec<String> = first.iter().chain(names).map(|head| head.to_string()).collect();
    if let [others @ .., last] = names {
        heads.extend(others.iter().map(|other| format!("{last} / {other}")));
    }
    heads
}

/// The ratios of the last reader to each other one, with the families they belong to.
#[derive(Default)]
pub struct Ratios(Vec<(&'static str, Vec<f64>)>);

impl Ratios {
    /// The cells of a family's values, and of their ratios.
    pub fn cells(&mut self, family: &'static str, values: &[f64]) -> Vec<String> {
        let ratios = values.split_last().map_or(vec![], |(last, others)| others.iter().map(|other| last / other).collect());
        let cells = values.iter().chain(&ratios).map(|value| format!("{value:.2}")).collect();
        self.0.push((family, ratios));
        cells
    }

    /// For each other reader a line that tells the geometric mean of the ratios to it, and the worst.
    pub fn lines(&self, names: &[&'static str]) -> Vec<String> {
        let (last, others) = names.split_last().expect("a reader");
        let line = |(at, other): (usize, &&str)| {
            let worst = self.0.iter().max_by(|one, another| one.1[at].total_cmp(&another.1[at]))?;
            let mean = (self.0.iter().map(|(_, ratios)| ratios[at].ln()).sum::<f64>() / self.0.len() as f64).exp();
            Some(format!("- {last} / {other}: geometric mean **{mean:.2}**, worst **{:.2}** ({}).", worst.1[at], worst.0))
        };
        others.iter().enumerate().filter_map(line).collect()
    }
}
