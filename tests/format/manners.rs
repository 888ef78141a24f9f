// Manners: the rules by name and number, and the bits that each one's definition asks.
use crate::definitions::{numbered, upper, File, Numbers};
use crate::page::{plain, shown, spans, table, Findings, Table};
use crate::sources::{body, cases, code, reads, HEADER, MANNERS, RULES};

// The definition of a rule has its name: SubstitutionMode3a is substitution_mode3a.
fn definition(rules: &str, name: &str) -> String {
    let firsts = rules.lines().filter_map(|line| line.split(' ').next());
    let named = firsts.into_iter().find(|first| upper(first) == upper(name));
    named.and_then(|first| body(rules, first)).unwrap_or_else(|| panic!("{RULES} does not define {name}"))
}

pub fn manners(page: &[Table], specs: &[File], header: &Numbers, found: &mut Findings) {
    let table = table(page, "Manners", "broken when");
    let here = table.numbers("name", "rule");
    found.both_ways("rule", &here, "a definition", &numbered(specs.iter(), "rule_number R.").into_iter().collect());
    let named = here.iter().map(|(name, number)| (upper(name), *number)).collect();
    let of_header = header.iter().filter_map(|(name, number)| Some((name.strip_prefix("BREACH_")?.to_string(), *number)));
    found.both_ways("rule", &named, HEADER, &of_header.collect());
    let rows: Vec<String> = table.rows.iter().map(|row| plain(table.cell(row, "name"))).collect();
    found.same("the order of the rules", &rows, MANNERS, &cases(MANNERS, "Rule"));
    let rules = code(RULES);
    for (row, name) in table.rows.iter().zip(&rows) {
        let asked: Vec<_> = reads(&definition(&rules, name)).concat();
        found.same(&format!("the bits of rule {name}"), shown(&spans(table.cell(row, "bits"))), RULES, shown(&asked));
    }
}
