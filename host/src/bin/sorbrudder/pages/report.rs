//! The page on all lists of archives that a version reads otherwise, grouped by the rule that changes them.

use crate::failure::Failure;
use crate::pages::compared::{Compared, Reading};
use crate::pages::html::{self, around, escaped, with_code};
use crate::pages::pairing::{Family, Part};
use sorbrudder::{LiftError, Lifter};
use std::collections::{BTreeMap, BTreeSet};
use std::fmt::Write as _;
use std::ops::Range;

/// How many tokens of a list are shown; of a longer one those round its first difference.
const WIDEST: usize = 200;

/// How many tokens stand before the first difference of such a list.
const BEFORE: usize = 20;

/// How many files of a group the table of contents names.
const MOST_FILES: usize = 100;

/// What lists that are read otherwise have in common.
#[derive(Copy, Clone, Debug, PartialEq, Eq, PartialOrd, Ord)]
pub enum Group {
    /// Rules of one family change them.
    One(Family),
    /// Rules of several families do.
    Several,
    /// A tree at the old version only.
    OnlyOld,
    /// A tree at the new version only.
    OnlyNew,
}

impl Group {
    /// The group of a list with these parts.
    pub fn of(parts: &[Part]) -> Self {
        match parts {
            [] => Self::One(Family::Other),
            [first, rest @ ..] if rest.iter().all(|part| part.family == first.family) => {
                Self::One(first.family)
            }
            _ => Self::Several,
        }
    }

    fn title(self) -> &'static str {
        match self {
            Self::One(Family::Conditional) => "Nested conditionals",
            Self::One(Family::AndOr) => "AND and OR",
            Self::One(Family::Comparison) => "Comparisons and equality",
            Self::One(Family::Other) => "Other rules",
            Self::Several => "Several of these rules",
            Self::OnlyOld => "Trees no longer",
            Self::OnlyNew => "Trees only now",
        }
    }

    fn name(self) -> &'static str {
        match self {
            Self::One(Family::Conditional) => "conditional",
            Self::One(Family::AndOr) => "and-or",
            Self::One(Family::Comparison) => "comparison",
            Self::One(Family::Other) => "other",
            Self::Several => "several",
            Self::OnlyOld => "only-old",
            Self::OnlyNew => "only-new",
        }
    }
}

/// The lists of a group.
#[derive(Default)]
struct Members {
    count: usize,
    /// The lists that are shown, each an element of the page.
    shown: Vec<String>,
    /// The versions that the lists have.
    versions: BTreeSet<i16>,
    /// For each file how many of its lists are shown, and the first of them.
    files: BTreeMap<String, (usize, usize)>,
}

/// What the page is made of.
pub struct Report {
    to: i16,
    most: usize,
    pub files: usize,
    pub lists: usize,
    pub alike: usize,
    pub no_trees: usize,
    pub refused: usize,
    /// The lists that cannot be lifted, of those that change.
    stay: usize,
    groups: BTreeMap<Group, Members>,
    failures: Vec<String>,
    shown: usize,
    lifter: Lifter,
}

impl Report {
    /// A report on what a version reads, with so many lists of each group at the most.
    pub fn new(to: i16, most: usize) -> Self {
        Self {
            to,
            most,
            files: 0,
            lists: 0,
            alike: 0,
            no_trees: 0,
            refused: 0,
            stay: 0,
            groups: BTreeMap::new(),
            failures: Vec::new(),
            shown: 0,
            lifter: Lifter::new(),
        }
    }

    pub fn are_all_alike(&self) -> bool {
        self.alike == self.lists
    }

    pub fn add_failure(&mut self, why: &str) {
        self.failures.push(why.to_string());
    }

    fn count(&self, groups: impl Fn(Group) -> bool) -> usize {
        let members = self.groups.iter().filter(|(group, _)| groups(**group));
        members.map(|(_, members)| members.count).sum()
    }

    /// Adds a list that is read otherwise.
    pub fn add(&mut self, group: Group, file: &str, number: u64, compared: &Compared) {
        let [old, _] = &compared.readings;
        let lifted = lifted(&mut self.lifter, compared, self.to);
        self.stay += usize::from(lifted.is_err());
        let members = self.groups.entry(group).or_default();
        members.count += 1;
        members.versions.insert(old.version);
        if members.shown.len() == self.most {
            return;
        }
        let of_file = members.files.entry(file.to_string());
        of_file.or_insert((0, self.shown)).0 += 1;
        let place = format!("{file}#{number}");
        members
            .shown
            .push(entry(self.shown, &place, group, compared, &lifted));
        self.shown += 1;
    }

    /// The counts in a sentence.
    pub fn summary(&self) -> String {
        format!(
            "{} lists at version {}: {} read alike, {} otherwise, {} trees no longer, {} trees only then, {} no trees at all, {} refused",
            self.lists,
            self.to,
            self.alike,
            self.count(|group| matches!(group, Group::One(_) | Group::Several)),
            self.count(|group| group == Group::OnlyOld),
            self.count(|group| group == Group::OnlyNew),
            self.no_trees,
            self.refused,
        )
    }

    /// Writes the page, group by group.
    pub fn write(&self, mut put: impl FnMut(&str) -> Result<(), Failure>) -> Result<(), Failure> {
        let title = format!("What version {} reads otherwise", self.to);
        let style = include_str!("report.css");
        let (head, tail) = around(&title, style, include_str!("report.js"));
        put(&head)?;
        put(&format!(
            "<h1>{title}</h1>\n{}{}{SEARCH}<main>\n",
            self.counts(),
            self.contents()
        ))?;
        for (group, members) in &self.groups {
            put(&self.head_of(*group, members))?;
            for entry in &members.shown {
                put(entry)?;
            }
            put("</section>\n")?;
        }
        put("</main>\n")?;
        put(&tail)
    }

    fn counts(&self) -> String {
        let differ = self.count(|group| matches!(group, Group::One(_) | Group::Several));
        let changed = self.count(|_| true);
        let mut html = String::from("<table class=\"counts\">\n");
        for (name, count) in [
            ("files", self.files),
            ("lists", self.lists),
            ("read alike", self.alike),
            ("read otherwise", differ),
            (
                "trees no longer",
                self.count(|group| group == Group::OnlyOld),
            ),
            (
                "trees only now",
                self.count(|group| group == Group::OnlyNew),
            ),
            ("no trees at all", self.no_trees),
            ("refused", self.refused),
            ("of those that change: lifted", changed - self.stay),
            ("of those that change: stay behind", self.stay),
        ] {
            let _ = writeln!(
                html,
                "<tr><th scope=\"row\">{name}</th><td>{}</td></tr>",
                grouped(count)
            );
        }
        html += "</table>\n";
        for why in &self.failures {
            let _ = writeln!(
                html,
                "<p class=\"failure\">Not read to its end: {}</p>",
                escaped(why)
            );
        }
        html
    }

    /// The table of contents: the groups, and the files of each.
    fn contents(&self) -> String {
        let mut html = String::from("<nav aria-label=\"Contents\">\n<h2>Contents</h2>\n<ul>\n");
        for (group, members) in &self.groups {
            let (name, title, count) = (group.name(), group.title(), grouped(members.count));
            let _ = write!(html, "<li><a href=\"#{name}\">{title}</a> ({count})");
            if members.files.len() > 1 {
                html += "<details class=\"files\"><summary>by file</summary><ul>\n";
                for (file, (count, first)) in members.files.iter().take(MOST_FILES) {
                    let file = escaped(file);
                    let count = grouped(*count);
                    let _ = writeln!(html, "<li><a href=\"#d{first}\">{file}</a> ({count})</li>");
                }
                if let more @ 1.. = members.files.len().saturating_sub(MOST_FILES) {
                    let _ = writeln!(html, "<li>and {} files more</li>", grouped(more));
                }
                html += "</ul></details>";
            }
            html += "</li>\n";
        }
        html += "</ul>\n";
        if self.groups.is_empty() {
            html += "<p>No list is read otherwise.</p>\n";
        }
        html + "</nav>\n"
    }

    /// What a group begins with: its name, what each version does, and whether all of it is shown.
    fn head_of(&self, group: Group, members: &Members) -> String {
        let (name, title, count) = (group.name(), group.title(), grouped(members.count));
        let mut html = format!(
            "<section class=\"group\" id=\"{name}\">\n<h2>{title} <span class=\"count\">{count}</span></h2>\n"
        );
        if let Group::One(family) = group {
            html += &habits(family, members.versions.iter().copied().chain([self.to]));
        }
        if members.shown.len() < members.count {
            let _ = writeln!(
                html,
                "<p class=\"note\">The first {} are shown; <code>sorbrudder diff</code> tells of all, \
                 and <code>--most N</code> shows more.</p>",
                grouped(members.shown.len())
            );
        }
        html
    }
}

/// The search, which the script shows.
const SEARCH: &str = "\
<form class=\"search\" role=\"search\" hidden>
<label>Search <input type=\"search\" autocomplete=\"off\" spellcheck=\"false\" placeholder=\"a file or a piece of a list\"></label>
<output role=\"status\"></output>
<button type=\"button\" class=\"open\">Open all</button><button type=\"button\" class=\"close\">Close all</button>
</form>
";

/// A number with its thousands apart.
fn grouped(number: usize) -> String {
    let digits = number.to_string();
    let mut text = String::new();
    for (place, digit) in digits.chars().enumerate() {
        if place > 0 && (digits.len() - place).is_multiple_of(3) {
            text.push(',');
        }
        text.push(digit);
    }
    text
}

/// What each version does with a family's operators, versions that do the same together.
fn habits(family: Family, versions: impl Iterator<Item = i16>) -> String {
    let mut habits: BTreeMap<&str, BTreeSet<i16>> = BTreeMap::new();
    for version in versions {
        habits
            .entry(family.habit(version))
            .or_default()
            .insert(version);
    }
    let mut habits: Vec<(&str, BTreeSet<i16>)> = habits.into_iter().collect();
    habits.sort_by_key(|(_, versions)| versions.first().copied());
    let habit = |(habit, versions): (&str, BTreeSet<i16>)| {
        let versions: Vec<String> = versions.iter().map(i16::to_string).collect();
        let who = match &versions[..] {
            [version] => format!("Version {version}"),
            versions => format!("Each of the versions {}", versions.join(", ")),
        };
        format!("<li>{who} {}.</li>\n", with_code(habit))
    };
    let habits: String = habits.into_iter().map(habit).collect();
    format!("<ul class=\"habits\">\n{habits}</ul>\n")
}

/// The list as it is lifted, as part of the page, or why it stays behind.
fn lifted(lifter: &mut Lifter, compared: &Compared, to: i16) -> Result<String, String> {
    let [old, _] = &compared.readings;
    let lifted = lifter.lift(&compared.list).from(old.version).to(to);
    match lifted {
        Ok(lifted) => {
            let pieces = compared.text.pieces(&lifted.tokens, &compared.list);
            let shown = html::pieces(&pieces[..pieces.len().min(2 * WIDEST)]);
            let more = if pieces.len() > 2 * WIDEST {
                " …"
            } else {
                ""
            };
            Ok(shown + more)
        }
        // Places are counted in tokens here, which nobody could follow.
        Err(LiftError::NotPlain { op, reason, .. }) => Err(with_code(&format!(
            "it cannot be written: `{op}`, {reason}"
        ))),
        Err(LiftError::Read(_)) => Err(format!("it is no tree at version {}", old.version)),
        Err(why) => Err(with_code(&why.to_string())),
    }
}

/// The tokens of a list that are shown.
fn window(compared: &Compared) -> Range<usize> {
    let len = compared.text.len();
    let parts = compared.parts.iter().map(|part| part.tokens.start);
    let said = compared
        .readings
        .iter()
        .flat_map(|reading| compared.said(reading));
    let first = parts.chain(said.map(|said| said.tokens.start)).min();
    let start = first.unwrap_or(0).saturating_sub(BEFORE);
    if len <= WIDEST {
        return 0..len;
    }
    let start = start.min(len - WIDEST);
    start..start + WIDEST
}

/// A list: closed, it shows its place and its text.
fn entry(
    number: usize,
    place: &str,
    group: Group,
    compared: &Compared,
    lifted: &Result<String, String>,
) -> String {
    let tokens = window(compared);
    let plain: String = tokens
        .clone()
        .flat_map(|token| [compared.text.token(token), compared.text.gap(token)])
        .collect();
    let cut = if tokens.len() < compared.text.len() {
        format!(
            "<p class=\"note\">{} tokens of {}</p>\n",
            tokens.len(),
            compared.text.len()
        )
    } else {
        String::new()
    };
    let mut html = format!(
        "<details class=\"entry\" id=\"d{number}\"><summary><span class=\"where\">{}</span> <code>{}</code></summary>\n{cut}<dl>\n",
        escaped(place),
        escaped(plain.trim_end()),
    );
    let mut row = |name: &str, text: &str| {
        let _ = writeln!(html, "<dt>{name}</dt><dd>{text}</dd>");
    };
    row(
        "source",
        &format!("<code>{}</code>", compared.source(tokens.clone())),
    );
    for reading in &compared.readings {
        let name = format!("version {}", reading.version);
        row(&name, &reading_of(compared, reading, tokens.clone()));
    }
    let lifted = match lifted {
        Ok(lifted) => format!("<code class=\"lifted\">{lifted}</code>"),
        Err(why) => format!("stays behind: {why}"),
    };
    row("lifted", &lifted);
    if group == Group::Several {
        let families: BTreeSet<Family> = compared.parts.iter().map(|part| part.family).collect();
        let names: Vec<&str> = families.into_iter().map(Family::name).collect();
        row("by", &names.join("; "));
    }
    html + "</dl></details>\n"
}

/// A reading with brackets round what is paired otherwise, or the messages.
fn reading_of(compared: &Compared, reading: &Reading, tokens: Range<usize>) -> String {
    if reading.read.is_ok() {
        let bracketed = compared.bracketed(reading, tokens, None);
        return format!("<code class=\"reading\">{bracketed}</code>");
    }
    let said = compared.said(reading).into_iter().map(|said| {
        let place: Vec<&str> = said
            .tokens
            .map(|token| compared.text.token(token))
            .collect();
        let at = match place.is_empty() {
            true => String::new(),
            false => format!(
                ", at <code class=\"said\">{}</code>",
                escaped(&place.join(" "))
            ),
        };
        format!("no tree: {}{at}", with_code(&said.text))
    });
    said.collect::<Vec<_>>().join("<br>")
}

#[cfg(test)]
mod tests {
    use super::grouped;

    #[test]
    fn thousands_stand_apart() {
        let shown = [0, 999, 1_000, 12_345_678].map(grouped);
        assert_eq!(shown, ["0", "999", "1,000", "12,345,678"]);
    }
}
