//! Numbers in a page of docs/: they stand between two marks, and the text
//! around them is nobody's but the writer's.

/// The page with what stands between the marks of `name` exchanged.
pub fn replace(page: &str, name: &str, numbers: &str) -> Result<String, String> {
    let begin = format!("<!-- numbers: {name} -->\n");
    let missing = || format!("the page has no marks for {name}");
    let (before, rest) = page.split_once(&begin).ok_or_else(missing)?;
    let (_, after) = rest.split_once("<!-- end -->").ok_or_else(missing)?;
    Ok(format!("{before}{begin}\n{numbers}\n<!-- end -->{after}"))
}

/// A table row.
pub fn row<T: AsRef<str>>(cells: &[T]) -> String {
    let cells: Vec<&str> = cells.iter().map(AsRef::as_ref).collect();
    format!("| {} |\n", cells.join(" | "))
}

/// A table's head: so many columns are text, the others are numbers.
pub fn head(texts: usize, names: &[&str]) -> String {
    let side = |column| if column < texts { "---|" } else { "---:|" };
    let line: String = (0..names.len()).map(side).collect();
    format!("{}|{line}\n", row(names))
}

/// A number with a comma for each thousand.
pub fn grouped(number: usize) -> String {
    let digits = number.to_string();
    let mut text = String::new();
    for (index, digit) in digits.chars().enumerate() {
        if index > 0 && (digits.len() - index) % 3 == 0 {
            text.push(',');
        }
        text.push(digit);
    }
    text
}

/// The rows of some tables whose aim is not kept: the first cell of the table's
/// head, those of the row up to its first time, and the aim.
pub fn above(report: &str) -> Vec<String> {
    let (mut title, mut before) = ("", Vec::new());
    let mut rows = Vec::new();
    for line in report.lines().filter(|line| line.starts_with('|')) {
        let cells: Vec<&str> = line.trim_matches('|').split('|').map(str::trim).collect();
        if line.starts_with("|---") {
            title = before[0];
        }
        let names = cells
            .iter()
            .take_while(|cell| cell.parse::<f64>().is_err() || !cell.contains('.'));
        let names: Vec<&str> = names.copied().collect();
        for most in cells.iter().filter_map(|cell| cell.strip_suffix(": no")) {
            rows.push(format!("{title}: {}; at most {most}", names.join(", ")));
        }
        before = cells;
    }
    rows
}

#[cfg(test)]
mod tests {
    use super::*;

    #[test]
    fn only_what_is_marked_is_exchanged() {
        let page =
            "a\n<!-- numbers: x -->\nold\n<!-- end -->\nb\n<!-- numbers: y -->\n<!-- end -->";
        let new =
            "a\n<!-- numbers: x -->\n\n7\n\n<!-- end -->\nb\n<!-- numbers: y -->\n<!-- end -->";
        assert_eq!(replace(page, "x", "7\n"), Ok(new.to_string()));
        assert!(replace(page, "z", "7\n").is_err());
    }

    #[test]
    fn rows_above_their_aim_are_named() {
        let table = head(1, &["runs", "held", "ms", "ratio", "at most"])
            + &row(&["a line", "4", "2.100", "0.80", "0.9: yes"])
            + &row(&["a grid", "1,021", "2.100", "1.80", "0.9: no"])
            + &row(&["a hub", "7", "9.000", "0.10", ""]);
        let more = head(0, &["minutes", "ms", "at most", "at most"])
            + &row(&["15", "0.300", "3.0: no", "1.3: no"]);
        let report = format!("Text: no\n\n{table}\n{more}");
        let right = [
            "runs: a grid, 1,021; at most 0.9",
            "minutes: 15; at most 3.0",
            "minutes: 15; at most 1.3",
        ];
        assert_eq!(above(&report), right);
    }

    #[test]
    fn thousands_have_commas() {
        let texts = [0, 999, 1_000, 65_536, 1_000_000].map(grouped);
        assert_eq!(texts, ["0", "999", "1,000", "65,536", "1,000,000"]);
    }
}
