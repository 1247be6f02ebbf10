//! The script of lists of calls that write.

use super::{answers, printed};
use crate::scripts;

const SHOWN: [&str; 6] = ["marks", "list", "compares", "dump", "chains", "erasable"];
const SETS: [&str; 4] = ["mark", "spec", "specs", "restrict"];
const WRITES: [&str; 8] = ["init", "add", "order", "cull", "erase", "deepen", "read", "seed"];
/// Asked of one node, now and then.
const ASKED: [&str; 2] = ["due", "introduced"];

fn word(line: &str) -> &str {
    line.split(' ').next().unwrap_or(line)
}

/// The lines of a list without the trials, and the trials, each from `save` to `restore`.
fn parted<'a>(lines: &[&'a str]) -> (Vec<&'a str>, Vec<Vec<&'a str>>) {
    let (mut outside, mut trials) = (Vec::new(), Vec::new());
    let mut lines = lines.iter().copied();
    while let Some(line) = lines.next() {
        if line == "save" {
            trials.push(lines.by_ref().take_while(|&line| line != "restore").collect());
            assert_eq!(lines.next(), Some("dump"));
        } else {
            outside.push(line);
        }
    }
    (outside, trials)
}

/// Each list has 5 to 30 calls, one at least that sets something of a node, and after each the graph is shown.
#[test]
fn lengths() {
    let script = printed(scripts::lists, 41, 500);
    let lists: Vec<&str> = script.split("\n\n").collect();
    assert_eq!(lists.len(), 500);
    for list in lists {
        let (lines, _) = parted(&list.trim().lines().collect::<Vec<_>>());
        let sets = lines.iter().filter(|line| SETS.contains(&word(line))).count();
        let calls = lines.iter().filter(|line| WRITES.contains(&word(line))).count() + sets;
        assert!(sets > 0 && (5..=30).contains(&calls), "{sets} of {calls}");
        for (at, line) in lines.iter().enumerate() {
            if !SHOWN.contains(line) && !ASKED.contains(&word(line)) && *line != "write" {
                assert_eq!(lines[at + 1..at + 7], SHOWN, "{line}");
            }
        }
    }
}

/// In a trial the erasable set is erased, or a finalized graph deepened, and shown.
#[test]
fn trials() {
    let script = printed(scripts::lists, 43, 500);
    let lines: Vec<&str> = script.lines().collect();
    let (_, trials) = parted(&lines);
    let erased = trials.iter().filter(|trial| word(trial[0]) == "erase");
    assert!(erased.clone().all(|trial| trial[1..] == SHOWN[..5]));
    let deepened = trials.iter().filter(|trial| word(trial[0]) == "deepen");
    assert!(deepened.clone().all(|trial| trial[1..] == ["marks", "list", "compares", "chains"]));
    assert_eq!(erased.clone().count() + deepened.clone().count(), trials.len());
    assert!(erased.count() > 500 && deepened.count() > 1_000);
}

/// There is a trial after each call wherever there is something to try, and after it the graph is what it was.
#[test]
fn each_graph_is_tried() {
    let script = printed(scripts::lists, 44, 500);
    let answers = answers(script.trim_end());
    let lines: Vec<(&str, &str)> = script.lines().zip(answers.iter().map(String::as_str)).collect();
    for (at, shown) in lines.windows(SHOWN.len()).enumerate() {
        if shown.iter().map(|(line, _)| *line).ne(SHOWN) {
            continue;
        }
        let [(_, marks), .., (_, dump), _, (_, erasable)] = *shown else { unreachable!("six lines are shown") };
        let mut rest = &lines[at + SHOWN.len()..];
        if erasable.contains('1') {
            rest = after_trial(rest, &format!("erase {erasable}"), dump);
        }
        if marks == "1 1 0" {
            rest = after_trial(rest, "deepen ", dump);
        }
        assert_ne!(rest.first().map(|(line, _)| *line), Some("save"));
    }
}

/// The lines after a trial of such a call, which leaves the graph that `dump` shows.
fn after_trial<'a, 'b>(lines: &'b [(&'a str, &'a str)], call: &str, dump: &str) -> &'b [(&'a str, &'a str)] {
    assert_eq!(lines[0].0, "save");
    assert!(lines[1].0.starts_with(call), "{} is no {call}", lines[1].0);
    let end = lines.iter().position(|(line, _)| *line == "restore").expect("the trial ends");
    assert_eq!(lines[end + 1], ("dump", dump));
    &lines[end + 2..]
}

/// Whether the line is an `add` whose PARENT or ORIGIN is the number that is no node.
fn names_no_node(line: &str) -> bool {
    let words: Vec<&str> = line.split(' ').collect();
    words[0] == "add" && words.len() > 6 && (words[1] == "4294967295" || words[6] == "4294967295")
}

/// What each call of these lists is refused for.
const REFUSALS: [(&str, &[u8]); 14] = [
    ("init", &[3]),
    ("add", &[3, 4, 5, 6]),
    ("order", &[3, 9]),
    ("cull", &[3]),
    ("erase", &[3, 11]),
    ("deepen", &[3, 5, 7]),
    ("read", &[4, 5, 6, 12]),
    ("seed", &[3, 5, 7]),
    ("mark", &[3, 4, 6]),
    ("spec", &[3, 4]),
    ("specs", &[3, 4]),
    ("restrict", &[3, 4]),
    ("due", &[3, 4]),
    ("introduced", &[3, 4]),
];

/// Every call is accepted and refused, each for all that it can be refused for, but 7 for adding and reading: these
/// graphs are small. Adding is refused 4 for the number that is no node, too.
#[test]
fn words_and_answers() {
    let script = printed(scripts::lists, 42, 2_000);
    let answers = answers(script.trim_end());
    let mut in_trial = false;
    let outside_trials = script.lines().zip(&answers).filter(|(line, _)| {
        in_trial = *line == "save" || in_trial && *line != "restore";
        !in_trial
    });
    let made: Vec<(&str, &String)> = outside_trials.collect();
    let counted = |call: &str, answer: &str| {
        let given = made.iter().filter(|(line, given)| word(line) == call && given.as_str() == answer);
        given.count()
    };
    for (call, numbers) in REFUSALS {
        for number in numbers {
            assert!(counted(call, &format!("refused {number}")) > 2, "{call} {number}");
        }
    }
    for call in ["order", "cull", "deepen", "seed", "swap", "new", "mark", "spec", "specs", "restrict"] {
        assert!(counted(call, "ok") > 500, "{call}");
    }
    assert!(["0", "1"].iter().all(|answer| counted("due", answer) > 500));
    assert!(made.iter().filter(|(line, answer)| names_no_node(line) && *answer == "refused 4").count() > 50);
    let nodes = script.lines().zip(&answers).filter(|(line, _)| *line == "chains");
    assert!(nodes.map(|(_, chains)| chains.split(';').count()).max() <= Some(12));
}

/// The script of graphs sets and asks too.
#[test]
fn the_graph_script_has_these_calls() {
    let script = printed(scripts::graphs, 45, 400);
    let answers = answers(script.trim_end());
    let counted = |call: &str, refused: bool| {
        let given = script.lines().zip(&answers).filter(|(line, _)| word(line) == call);
        given.filter(|(_, answer)| answer.starts_with("refused ") == refused).count()
    };
    for call in SETS.iter().chain(&ASKED) {
        assert!(counted(call, false) > 50 && counted(call, true) > 5, "{call}");
    }
    let named = script.lines().zip(&answers).filter(|(line, _)| names_no_node(line));
    assert!(named.filter(|(_, answer)| *answer == "refused 4").count() > 20);
}
