//! The pages that the command writes for a browser, as text; `make browser` looks at them in one.

mod common;

use common::command::{archive, folder, run, run_line};
use sorbrudder::archive::Format;
use std::path::Path;

/// The page of a list at two versions.
fn drawn(list: &str, versions: &str) -> String {
    let draw = run(
        Path::new("."),
        &["draw", "-e", list, "--at", versions, "-o", "-"],
    );
    assert_eq!(draw.status, Some(0), "{draw:?}");
    draw.out
}

/// A page as a person reads it: the text of an element of each line, without tags.
fn text(html: &str) -> String {
    let mut text = String::new();
    let mut is_tag = false;
    for c in html.chars() {
        match c {
            '<' => is_tag = true,
            '>' => is_tag = false,
            c if !is_tag => text.push(c),
            _ => {}
        }
    }
    let text = text
        .replace("&lt;", "<")
        .replace("&gt;", ">")
        .replace("&quot;", "\"");
    text.replace("&amp;", "&")
}

/// The lines of a page that have this class, as a person reads them.
fn lines_of(page: &str, class: &str) -> Vec<String> {
    let start = format!("class=\"{class}\"");
    let lines = page.lines().filter(|line| line.contains(&start));
    lines.map(|line| text(line).trim().to_string()).collect()
}

#[test]
fn only_the_nodes_that_are_paired_otherwise_are_marked() {
    let page = drawn("x < 3 + (a && b || c)", "5,6");
    assert_eq!(page.matches("class=\"node differs\"").count(), 4);
    assert_eq!(page.matches("class=\"node\"").count(), 16);
    // The last `:` joins the same two operands at both versions, and operands are never marked.
    let page = drawn("a ? b : c ? d : e", "4,5");
    let marked = [
        "? if1 [conditional]",
        "├─ ? if1 [conditional]",
        "│  └─ : then and else1 [conditional]",
    ];
    assert_eq!(lines_of(&page, "node differs")[..3], marked);
    assert_eq!(page.matches("class=\"node differs\"").count(), 6);
    let page = drawn("a + b * c", "4,6");
    assert!(
        page.contains("Both versions read the same tree.") && !page.contains("class=\"badge\"")
    );
    for star in ["' *'", "</span> *"] {
        assert!(!page.contains(star), "{star}");
    }
}

#[test]
fn each_part_has_its_own_colour_number_and_sentences() {
    let page = drawn("(a && b || c) + (a > b == c) ? d : e ? f : g", "4,6");
    let sentences = lines_of(&page, "part");
    assert_eq!(
        sentences,
        [
            "1 nested conditionals. Version 4 reads ((a && b || c) + (a > b == c) ? d : e) ? f : g: it pairs every : first, and then \
             every ? from the left. Version 6 reads (a && b || c) + (a > b == c) ? d : (e ? f : g): it takes ? and : together, nested \
             to the right.",
            "2 AND and OR. Version 4 reads a && (b || c): it pairs || before &&. Version 6 reads (a && b) || c: it pairs && before ||.",
            "3 comparisons and equality. Version 4 reads a > (b == c): it pairs comparisons one sign after the other, in the order < \
             == >= > <= !=. Version 6 reads (a > b) == c: it pairs comparisons before equalities, each from the left.",
        ]
    );
    // The number of a part, in one colour, stands in the source, in both trees and before its sentences.
    let badge = |number: usize, hue: usize| {
        format!("<b class=\"badge\" style=\"--hue:{hue}\">{number}</b>")
    };
    for (number, hue, count) in [(1, 25, 3), (2, 162, 2), (3, 300, 2)] {
        assert_eq!(
            page.matches(&badge(number, hue)).count(),
            3 * count + 1,
            "part {number}"
        );
    }
    let tokens: Vec<&str> = page.matches("class=\"token differs\"").collect();
    assert_eq!(tokens.len(), 7);
}

#[test]
fn what_each_version_pairs_is_drawn_under_the_source() {
    let page = drawn("x && (y || z) || x", "5,6");
    let figure = page
        .split("<div class=\"figure\"")
        .nth(1)
        .expect("a figure");
    let (figure, below) = figure.split_once("<main>").expect("the trees");
    assert!(
        below.contains("<ol class=\"tree\""),
        "the figure stands above the trees"
    );
    let bars = lines_of(figure, "bar");
    assert_eq!(bars, ["||", "&&", "&&", "||"], "{figure}");
    // Tokens have every second column, from the second on: at version 5 `||` has all behind `&&`, at 6 `&&` all before `||`.
    for area in ["2/6/2/19", "3/2/3/19", "5/2/5/15", "6/2/6/19"] {
        assert!(
            figure.contains(&format!("grid-area:{area};")),
            "{area}: {figure}"
        );
    }
    let versions: Vec<&str> = figure.matches("\">version ").collect();
    assert_eq!(versions.len(), 2);
}

#[test]
fn added_brackets_look_unlike_the_authors() {
    let page = drawn("x && (y || z) || x", "5,6");
    let lines = page.lines().filter(|line| line.contains("class=\"line\""));
    let shown: Vec<String> = lines
        .map(|line| text(&line.replace("<b class=\"added\">", "+")))
        .collect();
    assert_eq!(shown, ["x && +((y || z) || x+)", "+(x && (y || z)+) || x"]);
}

#[test]
fn the_place_of_a_message_is_marked() {
    let page = drawn("d * (a + b] * c", "4,6");
    let said = page.matches("class=\"token said\"").count();
    assert_eq!(said, 5, "{page}");
    for (row, place) in [(2, "6/2/15"), (3, "6/3/7")] {
        let area = format!("grid-area:{row}/{place};");
        assert!(page.contains(&area), "{area}: {page}");
    }
    let messages = lines_of(&page, "none");
    let first = "1 No tree: ( is closed by ] and not by )";
    assert_eq!(
        messages,
        [
            first,
            "2 No tree: no ) closes this (",
            first,
            "2 No tree: no ) closes this ("
        ]
    );
    // Of a list that one version reads, the other's message has its place, and the tree has no marks.
    let page = drawn("a : b ? c", "4,5");
    assert!(
        page.contains("class=\"bar said\"") && page.contains("role=\"treeitem\""),
        "{page}"
    );
    assert!(!page.contains("node differs"));
}

/// What a page must not have: something from elsewhere.
fn assert_it_needs_nothing_else(page: &str) {
    for outside in [
        "http:", "https:", "src=", "@import", "url(", "<link", "<iframe",
    ] {
        assert!(!page.contains(outside), "{outside}");
    }
    assert!(
        page.contains("default-src 'none'"),
        "nothing may be fetched"
    );
    assert_eq!(page.matches("<script").count(), 1);
}

#[test]
fn a_drawing_needs_nothing_else_and_says_all_without_its_script() {
    let folder = folder("drawing");
    let list = "x < 3 + (a && b || c)";
    let draw = run(
        &folder,
        &["draw", "-e", list, "--at", "5,6", "-o", "page.html"],
    );
    assert_eq!(draw.status, Some(0), "{draw:?}");
    let page = std::fs::read_to_string(folder.join("page.html")).expect("a page");
    assert_it_needs_nothing_else(&page);
    assert_eq!(page, drawn(list, "5,6"));
    for (rule, count) in [("AND", 2), ("OR", 2), ("comparison", 2), ("section", 2)] {
        let made = format!("<span class=\"made\"> [{rule}]</span>");
        assert_eq!(page.matches(&made).count(), count, "{rule}");
    }
    let hostile = drawn("'</script><b onclick=\"x\">' == a && b || c", "5,6");
    assert!(!hostile.contains("<b onclick") && hostile.matches("</script>").count() == 1);
    assert!(hostile.contains("&lt;/script&gt;&lt;b onclick=&quot;x&quot;&gt;"));
    let deep = format!("{}a{}", "(".repeat(2_000), ")".repeat(2_000));
    let size = drawn(&deep, "4,6").len();
    assert!(size < 4_000_000, "{size}");
    let long = ["a"; 1_000].join(" && b || ");
    let size = drawn(&long, "5,6").len();
    assert!(size < 4_000_000, "{size}");
}

#[test]
fn a_list_of_an_archive_is_drawn_as_it_stands_in_its_source() {
    let folder = folder("drawn_source");
    std::fs::write(
        folder.join("one"),
        archive(Format::Container, &[(5, "wet  &&\n  cold || dark")]),
    )
    .expect("a file");
    std::fs::write(folder.join("text"), "wet  &&\n  cold || dark // and more").expect("a file");
    let words = ["draw", "one#0", "--at", "5,6", "-o", "-"];
    let page = run(&folder, &words).out;
    assert!(
        text(&page).contains("Version 5 reads a && (b || c): it"),
        "{page}"
    );
    let page = run(&folder, &[&words[..], &["--source", "text"]].concat()).out;
    assert!(
        text(&page).contains("Version 6 reads (wet  &&\n  cold) || dark: it"),
        "{page}"
    );
    // A line of the source is a line of the figure.
    assert_eq!(page.matches("<div class=\"cells\">").count(), 2);
}

/// Lists of all groups at version 6.
const EIGHT: [(i16, &str); 8] = [
    (4, "a ? b : c ? d : e"),
    (5, "x && y || z"),
    (4, "x && y || z"),
    (5, "a > b == c"),
    (4, "a > b == c ? d : e ? f : g"),
    (4, "a : b"),
    (4, "a + b * c"),
    (6, "a + ( b"),
];

/// The page on these lists at version 6.
fn reported(name: &str, lists: &[(i16, &str)], more: &[&str]) -> String {
    let folder = folder(name);
    std::fs::write(folder.join("lists"), archive(Format::Container, lists)).expect("a file");
    let words = ["report", "lists", "--to", "6", "-o", "page.html"];
    let report = run(&folder, &[&words[..], more].concat());
    assert_eq!(report.status, Some(1), "{report:?}");
    std::fs::read_to_string(folder.join("page.html")).expect("a page")
}

/// The entries of a group of a report, as a person reads them.
fn entries(page: &str, group: &str) -> Vec<String> {
    let section = page
        .split("<section class=\"group\" id=\"")
        .find(|part| part.starts_with(group));
    let section = section.expect("the group");
    let section = section.split("</section>").next().unwrap_or_default();
    let entries = section.split("<details class=\"entry\" id=\"").skip(1);
    let entry = |entry: &str| {
        let entry = entry.split_once('>').expect("an element").1;
        let entry = entry.replace("<dt>", "| ").replace("</dt>", ": ");
        let entry = text(&entry);
        entry.split_whitespace().collect::<Vec<_>>().join(" ")
    };
    entries.map(entry).collect()
}

#[test]
fn a_report_groups_the_lists_by_the_rule_that_changes_them() {
    let page = reported("report_groups", &EIGHT, &[]);
    assert_eq!(
        entries(&page, "conditional"),
        [
            "lists#0 a ? b : c ? d : e | source: a ?1 b :1 c ?1 d : e | version 4: (a ? b : c) ? d : e | version 6: a ? b : (c ? d : e) \
          | lifted: (a ? b : c) ? d : e"
        ]
    );
    let and_or = entries(&page, "and-or");
    assert_eq!(and_or.len(), 2);
    let first = "lists#1 a && b || c | source: a &&1 b ||1 c | version 5: a && (b || c) | version 6: (a && b) || c | lifted: a && (b || c)";
    assert_eq!(and_or[0], first);
    assert_eq!(entries(&page, "comparison").len(), 1);
    let several = entries(&page, "several");
    assert!(
        several[0].ends_with("| by: nested conditionals; comparisons and equality"),
        "{several:?}"
    );
    let no_longer = entries(&page, "only-old");
    let why = "| version 6: no tree: : lacks what belongs to it, at : | lifted: stays behind: it cannot be written: :,";
    assert!(no_longer[0].contains(why), "{no_longer:?}");
    assert!(
        page.contains("<code>a <u class=\"said\">:</u> b</code>"),
        "{page}"
    );
    assert!(page.contains(
        "<li>Each of the versions 4, 5 pairs <code>||</code> before <code>&amp;&amp;</code>.</li>"
    ));
    assert_it_needs_nothing_else(&page);
}

#[test]
fn a_report_counts_and_has_a_table_of_contents() {
    let page = reported("report_counts", &EIGHT, &[]);
    for (name, count) in [
        ("files", 1),
        ("lists", 8),
        ("read alike", 1),
        ("read otherwise", 5),
        ("trees no longer", 1),
        ("trees only now", 0),
        ("no trees at all", 1),
        ("refused", 0),
        ("of those that change: lifted", 5),
        ("of those that change: stay behind", 1),
    ] {
        let row = format!("<tr><th scope=\"row\">{name}</th><td>{count}</td></tr>");
        assert!(page.contains(&row), "{row}");
    }
    let contents = page
        .split("<nav")
        .nth(1)
        .and_then(|nav| nav.split("</nav>").next());
    let contents = text(
        contents
            .expect("a table of contents")
            .split_once('>')
            .expect("an element")
            .1,
    );
    let lines: Vec<&str> = contents.lines().filter(|line| !line.is_empty()).collect();
    let groups = [
        "Nested conditionals (1)",
        "AND and OR (2)",
        "Comparisons and equality (1)",
    ];
    assert_eq!(
        lines,
        [
            &["Contents"],
            &groups[..],
            &["Several of these rules (1)", "Trees no longer (1)"]
        ]
        .concat()
    );
    for name in ["conditional", "and-or", "comparison", "several", "only-old"] {
        assert!(
            page.contains(&format!("href=\"#{name}\"")) && page.contains(&format!("id=\"{name}\""))
        );
    }
}

#[test]
fn a_report_shows_as_many_as_it_is_told_and_counts_all() {
    let many: Vec<(i16, &str)> = vec![(5, "x && y || z"); 3_000];
    let page = reported("report_most", &many, &["--most", "20"]);
    assert_eq!(entries(&page, "and-or").len(), 20);
    assert!(page.contains("AND and OR <span class=\"count\">3,000</span>"));
    assert!(text(&page).contains("The first 20 are shown"), "{page}");
    let page = reported("report_all", &many, &[]);
    assert_eq!(entries(&page, "and-or").len(), 3_000);
    let long = ["a"; 1_000].join(" && b || ");
    let page = reported("report_long", &[(5, &long)], &[]);
    assert!(
        text(&page).contains("200 tokens of 3997") && page.len() < 100_000,
        "{}",
        page.len()
    );
}

#[test]
fn a_report_takes_the_place_of_nothing_that_it_is_about() {
    let folder = folder("report_place");
    std::fs::create_dir_all(folder.join("in")).expect("a folder");
    let alike = archive(Format::Container, &[(5, "a + b")]);
    std::fs::write(folder.join("in/a"), &alike).expect("a file");
    for line in [
        "report in/a --to 6 -o in/a",
        "report in --to 6 -o in/page.html",
        "report in --to 6 -o in/../in/b",
    ] {
        let wrong = run_line(&folder, line);
        assert_eq!(wrong.status, Some(2), "{line}: {wrong:?}");
        assert_eq!(
            std::fs::read_dir(folder.join("in"))
                .expect("a folder")
                .count(),
            1
        );
    }
    let well = run_line(&folder, "report in --to 6 -o page.html");
    assert_eq!(well.status, Some(0), "{well:?}");
    let page = std::fs::read_to_string(folder.join("page.html")).expect("a page");
    assert!(page.contains("No list is read otherwise."));
    let streamed = run_line(&folder, "report in --to 6 -o -");
    assert_eq!(streamed.out, page);
    assert_eq!(std::fs::read(folder.join("in/a")).expect("a file"), alike);
}

#[test]
fn what_a_report_could_not_read_is_on_the_page() {
    let folder = folder("report_damage");
    let mut cut = archive(Format::Container, &[(5, "x && y || z"), (5, "a + b")]);
    cut.truncate(cut.len() - 30);
    std::fs::write(folder.join("cut<b>"), cut).expect("a file");
    let report = run_line(&folder, "report cut<b> missing --to 6 -o page.html");
    assert_eq!(report.status, Some(4), "{report:?}");
    let page = std::fs::read_to_string(folder.join("page.html")).expect("a page");
    assert_eq!(
        entries(&page, "and-or").len(),
        1,
        "lists before the damage are there"
    );
    assert!(
        page.contains("<p class=\"failure\">Not read to its end: cut&lt;b&gt;: "),
        "{page}"
    );
    assert_eq!(page.matches("class=\"failure\"").count(), 2);
    assert!(!page.contains("cut<b>"));
}

#[test]
fn the_contents_of_a_report_lead_to_the_files_of_a_group() {
    let folder = folder("report_files");
    std::fs::create_dir_all(folder.join("in")).expect("a folder");
    for name in ["one", "two & more"] {
        let lists = [(5, "x && y || z"), (5, "a + b"), (5, "y && x || z")];
        std::fs::write(folder.join("in").join(name), archive(Format::Words, &lists))
            .expect("a file");
    }
    let report = run_line(&folder, "report in --to 6 -o page.html");
    assert_eq!(report.status, Some(1), "{report:?}");
    let page = std::fs::read_to_string(folder.join("page.html")).expect("a page");
    for (id, place, file) in [
        ("d0", "in/one#0", "in/one"),
        ("d2", "in/two &amp; more#0", "in/two &amp; more"),
    ] {
        assert!(
            page.contains(&format!("<li><a href=\"#{id}\">{file}</a> (2)</li>")),
            "{page}"
        );
        assert!(
            page.contains(&format!(
                "id=\"{id}\"><summary><span class=\"where\">{place}</span>"
            )),
            "{page}"
        );
    }
}
