//! The page of a journal, without a browser: what is on it, that it needs nothing else, and that its elements are closed.
#![allow(missing_docs)]

mod common;

use common::{assert_said, file, folder, names, program, said, small, write_journal};
use jinnychair::SkipReason;
use jinnychair::journal::{Recorded, sha256};
use std::fs;
use std::path::{Path, PathBuf};
use tool::journal::Journal;
use tool::synthetic::BUILT_IN;
use tool::verdict::ONLY_BY_VIEWS;

/// A search of views from a file, with its journal.
fn searched(name: &str, words: &[&str]) -> PathBuf {
    let here = folder(name);
    fs::write(here.join("views.txt"), BUILT_IN.plate().text()).unwrap();
    let words = small(&[&["views.txt", "--journal=night"], words].concat());
    assert!(program(&here, &words).output().unwrap().status.code().is_some_and(|code| code != 1));
    here
}

/// The page of `night`; the program must end with this code.
#[track_caller]
fn page(here: &Path, words: &[&str], code: i32) -> String {
    said(here, &[&["report", "night", "--page=night.html"], words].concat(), code);
    file(here.join("night.html"))
}

#[track_caller]
fn assert_has(page: &str, parts: &[&str]) {
    for part in parts {
        assert!(page.contains(part), "`{part}` isn't on the page");
    }
}

/// Every element is closed where it should be, and nothing comes from elsewhere.
#[track_caller]
fn assert_sound(page: &str) {
    assert!(
        page.starts_with("<!DOCTYPE html>\n<!-- A page of jinnychair. -->\n<html lang=\"en\">")
    );
    let script = page.split("<script>").nth(1).unwrap().split("</script>").next().unwrap();
    let style = page.split("<style>").nth(1).unwrap().split("</style>").next().unwrap();
    let body = page.replace(script, "").replace(style, "");
    let mut open: Vec<&str> = vec![];
    for tag in body.split('<').skip(1).filter_map(|part| part.split_once('>').map(|(tag, _)| tag)) {
        let name = tag.split_whitespace().next().unwrap();
        if let Some(name) = name.strip_prefix('/') {
            assert_eq!(open.pop(), Some(name), "</{name}>");
        } else if !(name.starts_with('!') || tag.ends_with('/') || name == "meta") {
            open.push(name);
        }
    }
    assert!(open.is_empty(), "{open:?}");
    let foreign = body.replace("xmlns=\"http://www.w3.org/2000/svg\"", "");
    for address in ["http:", "https:", "src=", "href=", "<link", "<img", "<iframe"] {
        assert!(!foreign.contains(address), "{address}");
    }
    assert!(!style.contains("url(") && !style.contains("@import"));
    for call in ["fetch", "XMLHttpRequest", "import", "eval", "innerHTML"] {
        assert!(!script.contains(call), "{call}");
    }
    assert_eq!((page.matches("<script").count(), page.matches("<style").count()), (1, 1));
    assert_has(
        page,
        &["content=\"default-src 'none'; style-src 'unsafe-inline'; script-src 'unsafe-inline'\""],
    );
}

/// The number by which a cell is sorted.
fn sort_value(row: &str, column: usize) -> Option<f64> {
    let cell = row.split("<td").nth(column + 1).unwrap();
    let value = cell.split("data-v=\"").nth(1).unwrap().split('"').next().unwrap();
    if value.is_empty() { None } else { Some(value.parse().unwrap()) }
}

/// The order of a row's seed by its text: a round's by the number that it lies around, which letters would sort otherwise.
fn source_order(row: &str) -> f64 {
    let cell = row.split("<td").nth(3).unwrap().split('>').nth(1).unwrap();
    match cell.split('<').next().unwrap() {
        "decomposition" => -3.0,
        "seed file" => -2.0,
        "grid" => -1.0,
        around => around.strip_prefix("around ").unwrap().parse().unwrap(),
    }
}

fn rows(page: &str) -> Vec<&str> {
    let table = page.split("id=\"candidates\"").nth(1).unwrap();
    let body = table.split("<tbody>\n").nth(1).unwrap().split("</tbody>").next().unwrap();
    body.lines().collect()
}

#[test]
fn a_good_search_is_on_its_page_with_all_that_was_asked_and_found() {
    let here = searched("page-good", &["--centre-within=2", "--max-tilt=1.5deg"]);
    let page = page(&here, &["--stretches=1-7,8-30,40-52"], 0);
    assert_sound(&page);
    let sum = |name: &str| sha256(&fs::read(here.join(name)).unwrap());
    let [journal, inputs, views] = ["night", "night.inputs", "views.txt"].map(sum);
    let version = jinnychair::VERSION.to_be_bytes();
    assert_has(
        &page,
        &[
            "<title>Tilt search: night</title>",
            "Views: views.txt, 14 views, 980 dots",
            "✓ GOOD</p>\n<p>nothing that was looked at speaks against the result</p>",
            "<h2>Lean</h2>",
            "<span>lean x</span>−1.1958° ± 0.106°<span>−0.020871 rad</span>",
            "<th scope=\"row\">left open</th><td>±0.106° x, ±0.133° y, the sum of these</td></tr>\n",
            "<tr><th scope=\"row\" class=\"in\">by noise</th><td>±0.012° x, ±0.009° y (covers 95 of 100)</td>",
            "<h2>Winner of the search</h2>",
            "<tr><th scope=\"row\" class=\"in\">off the lean</th><td>",
            "±0.081° x, ±0.081° y for a centre within 2 px",
            "<figure>\n<!-- A chart of jinnychair. -->\n<svg ",
            "<td>S</td><td class=\"n\">52</td><td>scored</td>",
            "<td>skipped: the host found no camera</td>",
            "<code>52,0,0,0,0,52</code>",
            "<td>round 5</td><td>no. ",
            "<td>lines 8 to 30</td><td>no. ",
            "<p>In no stretch: lines 31 to 39.</p>\n<p class=\"note\">Lines are counted from 1, candidates from 0.</p>",
            "<p class=\"note\">Numbers are rounded; night.inputs has every bit.</p>",
            "<td>fx 1418.856 px  fy 1415.043 px  cx 655.000 px  cy 470.000 px</td>",
            "★ the winner. S scored; H skipped: the host found no camera; ",
            "<h2>The winner&#39;s errors</h2>",
            "view 9, place 60 100: 0.16",
            "5 after the grid, steps from 0.500° down to 0.031°; they reach 0.969° from a seed",
            "<h3>What could be missed</h3>",
            "nothing below -2.969°, nothing above 0.969°",
            "<th scope=\"row\">service&#39;s limit</th><td>tilts up to 1.500°</td>",
            &format!("jinnychair 0.{}.{}, begun ", version[2], version[3]),
            "night, 52 lines, ",
            &journal,
            &inputs,
            &views,
        ],
    );
    // Every candidate, with the numbers that it is sorted by bit by bit.
    let lines = Journal::read(&here.join("night")).unwrap().lines;
    let rows = rows(&page);
    assert_eq!(rows.len(), lines.len());
    for (row, line) in rows.iter().zip(&lines) {
        assert_eq!(sort_value(row, 0), Some(line.number as f64));
        assert_eq!(sort_value(row, 2), Some(source_order(row)));
        assert_eq!(sort_value(row, 3), Some(line.seed.sensor.tilt_x.to_degrees()));
        assert_eq!(sort_value(row, 6), line.outcome().score());
        assert!(sort_value(row, 8).is_some() && row.contains(">980/980<"));
    }
    assert_eq!(rows.iter().filter(|row| row.starts_with("<tr class=\"won\">")).count(), 1);
    for name in ["no", "round", "seed", "tilt-x", "outcome", "score", "rms", "p2"] {
        assert_has(&page, &[&format!("id=\"by-{name}\"")]);
    }
    // It prints, each sheet with the journal's name, and it is written anew.
    let begun = file(here.join("night.inputs"));
    let begun = begun.lines().find_map(|line| line.strip_prefix("date ")).unwrap();
    let footer = format!(
        "@page {{ @bottom-left {{ content: \"Tilt search: night, begun {begun}, journal\\27 s SHA-256 {}...\"; }} }}",
        &journal[..16]
    );
    let parts = ["@media print", "@page { size: A4;", "thead { display: table-header-group; }"];
    assert_has(&page, &parts);
    assert_has(&page, &["\"page \" counter(page) \" of \" counter(pages)", &footer]);
    assert_eq!(self::page(&here, &["--views=views.txt"], 0).matches("<h1>").count(), 1);
}

#[test]
fn a_doubtful_search_has_its_points_and_skipped_tilts_their_letters() {
    let here = searched("page-doubtful", &["--max-mean=0.05"]);
    let mut lines = Journal::read(&here.join("night")).unwrap().lines;
    let reasons =
        [SkipReason::HostFailed, SkipReason::BadCamera, SkipReason::NoMean, SkipReason::NoNumber];
    for (line, reason) in lines[3..].iter_mut().zip(reasons) {
        line.outcome = Recorded::Skipped(reason);
    }
    write_journal(&here.join("night"), &lines);
    let page = page(&here, &[], 3);
    assert_sound(&page);
    assert_has(
        &page,
        &[
            "<section class=\"verdict doubtful\">\n<p class=\"sign\">! DOUBTFUL</p>",
            "<p>2 points speak against the result</p>",
            "<li>4 of 52 tilts were skipped: a lean there is missed. Look at the reasons",
            "<li>the mean error, 0.0609 px, is above the limit 0.05 px. Look at the worst dots",
            "<code>48,1,1,1,1,52</code>",
        ],
    );
    for (row, letter) in rows(&page)[3..7].iter().zip(["H", "C", "E", "N"]) {
        assert!(row.starts_with("<tr class=\"skipped\">"), "{row}");
        assert!(
            row.contains(&format!("<td>{letter}</td><td class=\"n\" data-v=\"\">−</td>")),
            "{row}"
        );
    }
}

#[test]
fn without_the_views_the_page_says_what_could_not_be_looked_at() {
    let from = searched("page-from", &[]);
    let here = folder("page-alone");
    for name in ["night", "night.inputs"] {
        fs::copy(from.join(name), here.join(name)).unwrap();
    }
    let told = "views           not at hand: views.txt: can't be read: ";
    assert_said(&here, &["report", "night", "--page=night.html"], 3, &[told, "with --views"]);
    let page = page(&here, &[], 3);
    assert_sound(&page);
    let missing =
        ONLY_BY_VIEWS.iter().map(|what| format!("<li>{}</li>", what.replace('\'', "&#39;")));
    for part in missing {
        assert_has(&page, &[&part]);
    }
    assert_has(
        &page,
        &[
            "? NOT WHOLE</p>\n<p>nothing that can be looked at without the views speaks against the winner</p>",
            "The views aren&#39;t at hand: views.txt: can&#39;t be read: ",
            "<th scope=\"row\">lean</th><td>the lean isn&#39;t known without the views: these are the winner&#39;s",
            "by noise, lens</th><td>not known without the views</td>",
            "tilt x</th><td>-1.1942°, ± not known   (-0.020843 rad)</td>",
            "by the steps</th><td>±0.031° x, ±0.031° y</td>",
            // An option stays on one line.
            "tolerance with <span class=\"word\">--centre-within</span> PX</td>",
            "<span>tilt x</span>−1.1942° ± not known<span>",
        ],
    );
    assert!(!page.contains("RMS error") && !page.contains("The winner&#39;s errors"));
    assert!(!page.contains("about the axis that is held"));
    // Named, they are looked at; others are refused.
    let views = from.join("views.txt");
    let words = [format!("--views={}", views.display())];
    assert_has(&self::page(&here, &[&words[0]], 0), &["✓ GOOD"]);
    fs::write(here.join("other.txt"), "view\n").unwrap();
    fs::remove_file(here.join("night.html")).unwrap();
    let words = ["report", "night", "--page=night.html", "--views=other.txt"];
    assert_said(
        &here,
        &words,
        1,
        &["other.txt: these aren't the views that the search began with"],
    );
    assert!(!here.join("night.html").exists());
    // Points that need no views are shown without them.
    let from = searched("page-from-limits", &["--max-tilt=1deg"]);
    fs::remove_file(from.join("views.txt")).unwrap();
    let points =
        ["! DOUBTFUL", "<li>tilt x, -1.194° ± 0.031°, is or may be beyond the limit 1.000°"];
    assert_has(&self::page(&from, &[], 3), &points);
}

#[test]
fn runs_without_a_winner_and_unfinished_ones_have_a_page() {
    let here = folder("page-none");
    let words = ["search", "--tilts-x=6deg", "--tilts-y=0", "--bound=5deg", "--no-decomposition"];
    said(&here, &[&words[..], &["--journal=night"]].concat(), 1);
    let none = page(&here, &[], 3);
    assert_sound(&none);
    let parts = [
        "✗ NO WINNER</p>\n<p>the run ended and no candidate was scored (11): no tilt was tried: no pair",
        "<p>No tilt was tried.</p>",
        "none: nothing was scored",
        "<td>none of the typed ones</td>",
        "<td>every tilt about y: none is tried</td>",
    ];
    assert_has(&none, &parts);
    assert!(!none.contains("<h2>Candidates</h2>"));
    let here = searched("page-unfinished", &[]);
    let whole = file(here.join("night"));
    fs::write(here.join("night"), &whole[..whole.len() / 2]).unwrap();
    let parts = [
        "<h2>Best so far</h2>",
        "<li>the search was stopped by the end of the journal in round 3 of 5, with ",
        "Go on with it: `jinnychair resume` and the journal&#39;s name.</li>",
        "<p>The journal: line 27 has no end: it was cut off, or is being written. It is left out.</p>",
        "<td>by the end of the journal, in round 3 of 5",
        "3 rounds after the first. Best so far: no. ",
        ">the best so far</text>",
        "★ the best so far. S scored",
    ];
    let unfinished = page(&here, &[], 3);
    assert_sound(&unfinished);
    assert_has(&unfinished, &parts);
    fs::write(here.join("night"), "").unwrap();
    let empty = page(&here, &[], 3);
    assert_sound(&empty);
    assert_has(&empty, &["✗ NO WINNER</p>\n<p>nothing is scored yet, and the journal ends before"]);
}

#[test]
fn a_run_whose_tilts_were_all_skipped_has_a_page() {
    let here = searched("page-skipped", &[]);
    let mut lines = Journal::read(&here.join("night")).unwrap().lines;
    lines.retain(|line| line.round == 0);
    lines.iter_mut().for_each(|line| line.outcome = Recorded::Skipped(SkipReason::NoMean));
    write_journal(&here.join("night"), &lines);
    let skipped = page(&here, &[], 3);
    assert_sound(&skipped);
    let head = "✗ NO WINNER</p>\n<p>the run ended and no candidate was scored (11): every tried tilt was skipped, 7 in all. Look";
    assert_has(&skipped, &[head, "<code>0,0,0,7,0,7</code>", "E</text>"]);
    // Neither colours nor marks of what there isn't.
    for part in ["best score", "the winner", "colours", "★"] {
        assert!(!skipped.contains(part), "{part}");
    }
    fs::remove_file(here.join("views.txt")).unwrap();
    let told = "views           not at hand: views.txt: can't be read: ";
    assert_said(&here, &["report", "night", "--page=night.html"], 3, &[told]);
    let parts =
        ["So this wasn&#39;t looked at:", "<li>how many dots were counted for each tilt</li>"];
    assert_has(&file(here.join("night.html")), &parts);
}

#[test]
fn a_hinged_module_and_a_resumed_search_have_a_page() {
    let here = folder("page-one-axis");
    let words = ["search", "--one-axis", "--tilts-x=-2deg,-1deg,0", "--journal=night"];
    said(&here, &words, 3);
    let whole = page(&here, &[], 3);
    assert_sound(&whole);
    let parts = [
        "<div><span>lean y</span>held at 0°</div>",
        "0° (held: one axis; let free, it would be ",
        "<li>tilt y is held at 0, and the views want ",
        "<th scope=\"row\">one axis</th><td>yes: tilt y is held at 0</td>",
        "every lean about y: it is held at 0",
    ];
    assert_has(&whole, &parts);
    // Cut and gone on with, it has the same page except for the date.
    let journal = file(here.join("night"));
    fs::write(here.join("night"), &journal[..journal.len() / 3]).unwrap();
    said(&here, &["resume", "night"], 3);
    let dated = |page: &str| {
        page.lines().filter(|line| !line.contains("this page")).collect::<Vec<_>>().join("\n")
    };
    assert_eq!(dated(&page(&here, &[], 3)), dated(&whole));
}

#[test]
fn names_are_texts_and_no_page_vouches_for_a_changed_journal() {
    let here = searched("page-names", &[]);
    for ending in ["", ".inputs"] {
        let name = format!("night{ending}");
        fs::copy(here.join(name), here.join(format!("<b>&\"'{ending}"))).unwrap();
    }
    said(&here, &["report", "<b>&\"'", "--page=odd.html"], 0);
    let odd = file(here.join("odd.html"));
    assert_sound(&odd);
    assert_has(&odd, &["<title>Tilt search: &lt;b&gt;&amp;&quot;&#39;</title>"]);
    assert_has(&odd, &["content: \"Tilt search: \\3c b\\3e \\26 \\22 \\27 , begun "]);
    let mut lines = Journal::read(&here.join("night")).unwrap().lines;
    lines[9].round = 3;
    write_journal(&here.join("night"), &lines);
    let words = ["report", "night", "--page=night.html"];
    let told =
        "night: not the run's from line 10 on: the line's round is 3; the run is in round 1 (30)";
    assert_said(&here, &words, 1, &[told]);
    fs::remove_file(here.join("night.inputs")).unwrap();
    assert_said(&here, &words, 1, &["no page is made of such a journal"]);
    assert!(!here.join("night.html").exists());
    // No foreign file is written over.
    let before = names(&here);
    for (name, fault) in [
        (
            "views.txt",
            "views.txt: there is such a file, and this program didn't write it. --force writes over it; or name another with --page",
        ),
        ("night", "night: this is an input, and would be written over. Name another with --page"),
    ] {
        assert_said(&here, &["report", "night", "--page", name], 1, &[fault]);
    }
    assert_said(&here, &["report", "night", "--views=x"], 2, &["--views is for a page"]);
    assert_said(&here, &["report", "night", "--page=a", "--page=b"], 2, &["stated twice"]);
    assert_eq!(names(&here), before);
}
