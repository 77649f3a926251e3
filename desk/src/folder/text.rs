//! The table of all roads as text.

use crate::folder::road::Road;
use crate::folder::table;
use crate::language::Language;

/// Aligned columns, two blanks between them, and the counts.
pub fn page(roads: &[Road], language: Language) -> String {
    let head = table::HEAD.map(|name| language.say(name, &[]));
    let cells = roads.iter().map(|road| table::cells(road, language));
    let lines: Vec<_> = [head].into_iter().chain(cells).collect();
    let mut widths = [0; table::COLUMNS];
    for cells in &lines {
        for (width, cell) in widths.iter_mut().zip(cells) {
            *width = (*width).max(cell.chars().count());
        }
    }
    let mut out = String::new();
    for cells in &lines {
        out += &line(cells, &widths);
    }
    out + "\n" + &table::totals(roads, language) + "\n"
}

fn line(cells: &[String; table::COLUMNS], widths: &[usize; table::COLUMNS]) -> String {
    let columns = cells.iter().zip(widths).zip(table::IS_NUMBER);
    let aligned = columns.map(|((cell, &width), is_number)| match is_number {
        true => format!("{cell:>width$}"),
        false => format!("{cell:<width$}"),
    });
    let line = aligned.collect::<Vec<_>>().join("  ");
    format!("{}\n", line.trim_end())
}

#[cfg(test)]
mod tests {
    use super::*;
    use crate::folder::road::Outcome;
    use reference::file::Contract;

    #[test]
    fn aligned_columns() {
        let road = |name: &str, contract, outcome| Road {
            name: name.into(),
            contract,
            outcome,
            is_unchanged: true,
        };
        let listed = |rows| Outcome::Listed {
            length: 1_200_000,
            rows,
        };
        let roads = [
            road("a", Some(Contract::Dated(20_090_615)), listed(41)),
            road("b", Some(Contract::Undated), listed(7)),
            road("longer", None, Outcome::Failed("no".into())),
        ];
        let expected = "\
file    contract date  rule book          length, m  rows  refusal  place  why
a       2009-06-15     old handbook       1,200.000    41
b       -              today's rule book  1,200.000     7
longer  -              -                                                   no

2 listed, 0 refused, 1 not read or not written
";
        assert_eq!(page(&roads, Language::English), expected);
    }
}
