//! Pictures: what they say is held to the trace of the song and to the record of the trial.
use crate::common::{own, quiet, stored, told};

fn path(name: &str) -> String {
    own(name).to_str().unwrap().into()
}

/// Draws to a file of this name, and gives it.
fn drawn(words: &[&str], name: &str) -> String {
    let out = path(name);
    let (status, _, err) = told(&[&["picture"], words, &["--out", &out]].concat());
    assert_eq!((status, err.as_str()), (0, ""), "{words:?}");
    std::fs::read_to_string(out).unwrap()
}

/// The texts between two marks.
fn between<'a>(text: &'a str, start: &'a str, end: &'a str) -> Vec<&'a str> {
    let parts = text.split(start).skip(1);
    parts.map(|part| part.split(end).next().unwrap()).collect()
}

/// The number after a word of a mark's text.
fn after(said: &str, word: &str) -> usize {
    let (_, from) = said.split_once(&format!("{word} ")).expect(said);
    let digits = from.split(|c: char| !c.is_ascii_digit()).next().unwrap();
    digits.parse().expect(said)
}

#[test]
fn marks_are_what_the_trace_says() {
    for name in ["effects", "eight", "tuned"] {
        let module = &stored(name);
        let svg = drawn(&[module, "--ticks", "120"], &format!("{name}.svg"));
        let (_, trace, _) = told(&["trace", module, "--ticks", "120", "--plain"]);
        let ticks: Vec<Vec<&str>> = trace
            .lines()
            .skip(1)
            .map(|line| line.split(' ').collect())
            .collect();
        let titles = between(&svg, "<title>channel ", "</title>");
        assert!(titles.len() > 10, "{name}");
        for said in titles {
            let channel: usize = said.split(',').next().unwrap().parse().unwrap();
            let (from, to) = (after(said, "ticks"), after(said, " to"));
            let own = ["sample", "volume", "period"].map(|word| after(said, word));
            for tick in &ticks[from..=to] {
                // Six numbers, and seven a channel: its sample, volume and period are the second to the fourth.
                let at = 6 + 7 * (channel - 1) + 1;
                let traced = [0, 1, 2].map(|k| tick[at + k].parse::<usize>().unwrap());
                assert_eq!(own, traced, "{name}: {said}");
            }
            assert_eq!(
                ticks[from][1],
                after(said, "position").to_string(),
                "{said}"
            );
            assert_eq!(ticks[from][2], after(said, "row").to_string(), "{said}");
        }
    }
}

#[test]
fn every_mark_has_its_text_and_nothing_comes_from_elsewhere() {
    let svg = drawn(&[&stored("effects"), "--ticks", "60"], "texts.svg");
    // In the legend a sample's name is the text.
    for item in between(&svg, "role=\"listitem\"", "</g>") {
        assert!(
            item.contains("<title>") || item.contains("</text>"),
            "{item}"
        );
    }
    assert!(
        svg.contains("<desc id=\"about\">60 ticks, 0.588 seconds, 4 channels. A mark"),
        "{svg}"
    );
    assert!(svg.contains("prefers-color-scheme:dark") && svg.contains("@media print"));
    for foreign in ["href", "src=", "@import", "url(http", "<script"] {
        assert!(!svg.contains(foreign), "{foreign}");
    }
    let opened = svg.matches("<g ").count();
    assert_eq!(opened, svg.matches("</g>").count());
}

/// What the record says of each touch and page change: line, page, made, clock, age, position and number.
fn recorded(record: &str) -> Vec<[String; 7]> {
    let mut rows = Vec::new();
    for (line, text) in (1..).zip(record.lines()) {
        let Some((call, results)) = text.split_once(" = ") else {
            continue;
        };
        let results: Vec<&str> = results.split(' ').collect();
        let words: Vec<&str> = call.split(' ').collect();
        let clock = results[results.len() - 2];
        let answers = match words[0] {
            "touch" => &results[..1],
            "burst" => &results[3..results.len() - 2],
            _ => continue,
        };
        for (touch, answer) in words[1..].chunks(3).zip(answers) {
            let number = |text: &str| text.parse::<u32>().unwrap();
            let age = number(clock).wrapping_sub(number(touch[1])).to_string();
            let line = format!("{line}");
            rows.push([&line, touch[0], touch[1], clock, &age, touch[2], answer].map(String::from));
        }
    }
    rows
}

#[test]
fn a_trial_s_page_says_what_its_record_says() {
    let (module, record) = (&stored("flow"), path("pictured.record"));
    let script = "play 5\nburst 0 3 1 1 5 0 0 5 3\nplay 30\npage\ntouch 0 30 1\ntouch 1 3 1\nplay 4\ntouch 1 4294967295 0\ntouch 1 38 2\nplay 9\n";
    std::fs::write(own("pictured.txt"), script).unwrap();
    let words = ["replay", module, "pictured.txt", "--record", &record];
    assert_eq!(told(&words).0, 0);
    let page = drawn(&[module, "--trial", &record], "pictured.html");
    let record = std::fs::read_to_string(record).unwrap();
    let body = between(&page, "<tbody>", "</tbody>")[0];
    let mut touches = Vec::new();
    let mut pages = Vec::new();
    for row in between(body, "<tr>", "</tr>") {
        let cells = between(row, "<td", "</td>");
        let cells: Vec<&str> = cells
            .iter()
            .map(|cell| cell.split_once('>').unwrap().1)
            .collect();
        if cells[1] == "page change" {
            pages.push((cells[0], cells[2], cells[4]));
            continue;
        }
        let number = match cells[8].strip_prefix("refused ") {
            Some(refused) => refused.split(' ').next().unwrap(),
            None => "0",
        };
        let own = [
            cells[0], cells[2], cells[3], cells[4], cells[5], cells[7], number,
        ];
        touches.push(own.map(String::from));
    }
    let expected = recorded(&record);
    assert_eq!(touches, expected);
    assert_eq!(expected.len(), 7);
    assert_eq!(pages, [("8", "1", "35")]);
    // The marks say the same as the table.
    let titles = between(&page, "<title>line ", "</title>");
    assert_eq!(titles.len(), 8);
    let said: Vec<&&str> = titles
        .iter()
        .filter(|said| said.contains(": touch made"))
        .collect();
    for (said, [line, page, made, clock, age, position, number]) in said.iter().zip(&expected) {
        let start =
            format!("{line}: touch made on page {page} at clock {made}, came at clock {clock}, ");
        assert!(said.starts_with(&start), "{said}");
        let middle = format!("age {age} ticks, to position {position}: ");
        assert!(said.contains(&middle), "{said}");
        let answer = said.split_once(&middle).unwrap().1;
        let answered = answer.starts_with(&format!("refused {number} at "))
            || number == "0" && answer == "accepted";
        assert!(answered, "{said}");
    }
}

#[test]
fn odd_names_do_no_harm() {
    let module = quiet("odd <b>&\"picture\".mod", &[]);
    let mut file = std::fs::read(&module).unwrap();
    file[..20].copy_from_slice(b"</svg><script>\x1B[31m\xE9");
    std::fs::write(&module, file).unwrap();
    let script = path("odd.txt");
    std::fs::write(&script, "play 3\ntouch 9 9 9\n").unwrap();
    for picture in [
        drawn(&[&module, "--ticks", "9"], "odd.svg"),
        drawn(&[&module, "--trial", &script], "odd.html"),
    ] {
        assert!(!picture.contains("<script") && !picture.contains("<b>"));
        assert!(picture.contains("&lt;/svg&gt;&lt;script&gt;"));
        assert!(picture.chars().all(|c| c == '\n' || !c.is_control()));
        assert_eq!(picture.matches("</svg>").count(), 1);
    }
    // No tick at all is a picture, too.
    drawn(&[&module, "--ticks", "0"], "empty.svg");
}

#[test]
fn wrong_pictures_are_told() {
    let module = &stored("flow");
    for (words, reason) in [
        (
            &["--out", "x.png"][..],
            "the name must end in .svg, or be -",
        ),
        (
            &["--trial", "x.txt", "--out", "x.svg"],
            "the name must end in .html, or be -",
        ),
        (
            &["--trial", "x.txt", "--out", "x.html", "--once"],
            "a trial has its own length",
        ),
        (
            &["--ticks", "20001", "--out", "x.svg"],
            "more than 20000 ticks for one picture",
        ),
        (
            &["--trial", "no/such", "--out", "x.html"],
            "no/such: No such file",
        ),
        (&[], "no --out"),
    ] {
        let (status, out, err) = told(&[&["picture", module], words].concat());
        assert_eq!((status, out.as_str()), (2, ""), "{words:?}");
        assert!(err.contains(reason), "{err}");
    }
    let (status, out, _) = told(&["picture", "/dev/null", "--out", "refused.svg", "--plain"]);
    assert_eq!((status, out.as_str()), (1, "1 0 0\n"));
    assert!(!own("refused.svg").exists());
}
