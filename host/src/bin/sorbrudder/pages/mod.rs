//! The pages that the command writes for a browser: each is one file that needs nothing from elsewhere, and says all it has to say without
//! its script.

pub mod compared;
mod draw_page;
mod figure;
mod html;
pub mod pairing;
pub mod report;
pub mod text;

pub use draw_page::html as draw;

#[cfg(test)]
mod tests {
    use super::compared::Compared;
    use super::report::{Group, Report};
    use sorbrudder::Tokens;

    /// Words of the notation, of which lists of any kind can be made.
    const WORDS: &str = "a b 2 ( ) [ ] { } ! - + * / < == > != && || ? : ?? = ; , . -> return loop for_each math.sin query.1 array.1 break";

    /// Whatever a list is, a page is made of it, with as many elements closed as opened.
    #[test]
    fn every_list_has_a_page() {
        let words: Vec<&str> = WORDS.split(' ').collect();
        let mut state = 1u64;
        let mut next = |below: usize| {
            state = state
                .wrapping_mul(6_364_136_223_846_793_005)
                .wrapping_add(1_442_695_040_888_963_407);
            (state >> 33) as usize % below
        };
        let mut report = Report::new(6, 1_000);
        for number in 0..5_000 {
            let len = next(14);
            let chosen: Vec<&str> = (0..len).map(|_| words[next(words.len())]).collect();
            let source = chosen.join(" ");
            let list: Tokens = source.parse().expect("the notation");
            for versions in [[4, 6], [5, 4]] {
                let page = super::draw(&list, &source, versions);
                for name in ["span", "li", "ol", "b", "code", "section", "div"] {
                    let opened = page.matches(&format!("<{name} ")).count()
                        + page.matches(&format!("<{name}>")).count();
                    assert_eq!(
                        opened,
                        page.matches(&format!("</{name}>")).count(),
                        "{name} of {source}"
                    );
                }
                let compared = Compared::of(&list, "", versions);
                report.add(Group::of(&compared.parts), "file", number, &compared);
            }
        }
        let mut page = String::new();
        let written = report.write(|text| {
            page += text;
            Ok(())
        });
        assert!(written.is_ok());
        assert_eq!(
            page.matches("<details").count(),
            page.matches("</details>").count()
        );
    }
}
