//! The scripts of `examples/`: each is accepted, and each command in its comments
//! prints what stands below it.

mod support;

use std::fs;
use std::path::Path;
use std::thread;
use support::fir;

/// The folder of the examples.
const EXAMPLES: &str = concat!(env!("CARGO_MANIFEST_DIR"), "/../../examples/");

/// The file that the examples join to, one of each test's own.
fn house() -> String {
    let test = thread::current().name().unwrap_or("main").to_string();
    format!("{}/house_of_{test}.bin", env!("CARGO_TARGET_TMPDIR"))
}

/// The scripts.
const SCRIPTS: [&str; 12] = [
    "defrost.fir",
    "energy.fir",
    "heating.fir",
    "house.fir",
    "levels.fir",
    "pump.fir",
    "pump_later.fir",
    "riser.fir",
    "setback.fir",
    "spread.fir",
    "stairwell.fir",
    "water.fir",
];

/// A command of a comment or a document, and what it is to print.
struct Shown {
    arguments: Vec<String>,
    output: String,
}

/// A line with the places that its files have here.
fn placed(line: &str) -> String {
    let line = line.replace("examples/", EXAMPLES);
    line.replace("house.bin", &house())
}

/// The words of a text, one space between two: longer names make a table wider.
fn narrow(text: &str) -> String {
    let words = |line: &str| line.split_whitespace().collect::<Vec<_>>().join(" ");
    text.lines().map(|line| words(line) + "\n").collect()
}

/// The commands of a text, which stand behind an indent, with the lines below them.
fn shown(text: &str, indent: &str) -> Vec<Shown> {
    let mut all: Vec<Shown> = Vec::new();
    let mut inside = false;
    for line in text.lines() {
        let indented = line.strip_prefix(indent);
        let command = indented.and_then(|line| line.strip_prefix("$ fir "));
        if let Some(command) = command {
            let command = placed(command);
            all.push(Shown {
                arguments: command.split(' ').map(String::from).collect(),
                output: String::new(),
            });
            inside = true;
        } else if let (Some(line), true, Some(last)) = (indented, inside, all.last_mut()) {
            last.output += &format!("{}\n", placed(line));
        } else {
            inside = false;
        }
    }
    all
}

/// Asserts that a command prints what is shown.
#[track_caller]
fn assert_printed(shown: &Shown, origin: &str) {
    let words: Vec<&str> = shown.arguments.iter().map(String::as_str).collect();
    let done = fir(&words, b"");
    let shape = if words[0] == "join" {
        narrow
    } else {
        str::to_string
    };
    let (found, expected) = (shape(&done.text()), shape(&shown.output));
    assert_eq!(found, expected, "{origin}: {words:?}");
    assert_eq!(done.errors, "", "{origin}: {words:?}");
}

#[test]
fn each_script_is_accepted_and_does_what_its_comments_show() {
    for script in SCRIPTS {
        let path = format!("{EXAMPLES}{script}");
        let check = fir(&["check", &path], b"");
        assert_eq!((check.status, check.errors.as_str()), (0, ""), "{script}");
        let text = fs::read_to_string(&path).expect("the script is there");
        let commands = shown(&text, "#   ");
        assert!(commands.len() >= 3, "{script} shows too few commands");
        for command in &commands {
            assert!(!command.output.is_empty(), "{script}: an output is missing");
            assert_printed(command, script);
        }
    }
}

#[test]
fn the_plan_of_a_pool_does_what_its_comment_shows() {
    let plan = "stairwells.plan";
    let text = fs::read_to_string(format!("{EXAMPLES}{plan}")).expect("the plan is there");
    let commands = shown(&text, "#   ");
    assert_eq!(commands.len(), 1);
    assert_printed(&commands[0], plan);
    assert!(commands[0].output.contains("VECTORS after 58 steps"));
}

#[test]
fn no_script_is_left_out() {
    let folder = fs::read_dir(Path::new(EXAMPLES)).expect("the examples are there");
    let names = folder.map(|entry| entry.expect("an entry").file_name());
    let mut names: Vec<String> = names.map(|name| name.to_string_lossy().into()).collect();
    names.retain(|name| name.ends_with(".fir"));
    names.sort();
    assert_eq!(names, SCRIPTS);
}

/// An entry of a script with the arguments of a longest run of it, its steps, and its
/// bound in words.
const LONGEST: [(&str, &str, &[&str], u32, &str); 11] = [
    ("defrost.fir", "0.0", &["15", "-75", "55"], 24, "24 steps"),
    ("energy.fir", "0.0", &["0", "900", SIXTEEN], 170, "none"),
    ("levels.fir", "0.0", &["[5120,840,37]"], 8, "8 steps"),
    ("levels.fir", "0.1", &["[5120,840,37]"], 10, "10 steps"),
    ("levels.fir", "0.2", &["[5120,840,37]"], 4, "10 steps"),
    ("pump.fir", "0.0", &["210", "[200,195,225]"], 18, "18 steps"),
    (
        "pump_later.fir",
        "0.0",
        &["210", "[225,225,225]"],
        30,
        "30 steps",
    ),
    ("riser.fir", "0.0", &["[800,2400,1900]"], 176, "176 steps"),
    ("setback.fir", "0.0", &["20", "23"], 26, "26 steps"),
    ("spread.fir", "0.0", &["[350,29]", "[290,31]"], 7, "7 steps"),
    ("spread.fir", "1.0", &["350", "290"], 2, "2 steps"),
];

/// As many readings as a vector can have.
const SIXTEEN: &str = "[1,2,3,4,5,6,7,8,9,10,11,12,13,14,15,16]";

#[test]
fn bounds_stand_beside_the_longest_runs() {
    for (script, entry, arguments, steps, bound) in LONGEST {
        let path = format!("{EXAMPLES}{script}");
        let rows = fir(&["bounds", &path], b"").text();
        let row = format!(": {entry} {bound}");
        let mut rows = rows.lines();
        let found = rows.any(|line| line.ends_with(&row) || line.contains(&format!("{row}: ")));
        assert!(found, "{script}: {row}");
        let call = [&["run", &path, entry, "--stats"], arguments].concat();
        let text = fir(&call, b"").text();
        let most = match bound.strip_suffix(" steps") {
            Some(most) => format!(" of at most {most}"),
            None => ", no bound is given".to_string(),
        };
        let line = format!("  steps: {steps}{most}");
        assert!(text.lines().any(|there| there == line), "{script}: {text}");
    }
}

#[test]
fn every_run_of_a_comment_keeps_to_the_bound_of_its_entry() {
    let mut exactly = 0;
    for script in SCRIPTS {
        let text = fs::read_to_string(format!("{EXAMPLES}{script}")).expect("the script is there");
        for command in shown(&text, "#   ") {
            let mut words: Vec<&str> = command.arguments.iter().map(String::as_str).collect();
            if words[0] != "run" || words.contains(&"--then") {
                continue;
            }
            words.retain(|word| *word != "--stats");
            words.push("--stats");
            let text = fir(&words, b"").text();
            let steps = text.lines().find_map(|line| line.strip_prefix("  steps: "));
            let numbers = steps.and_then(|steps| steps.split_once(" of at most "));
            let Some((taken, most)) = numbers else {
                continue;
            };
            let number = |text: &str| text.parse::<u32>().expect("a number");
            let (taken, most) = (number(taken), number(most));
            assert!(taken <= most, "{script}: {words:?}: {text}");
            exactly += usize::from(taken == most);
        }
    }
    assert!(exactly >= 10, "{exactly}");
}

/// What version 0.0 of a script gives.
#[track_caller]
fn gives(script: &str, arguments: &[&str], expected: i64) {
    let path = format!("{EXAMPLES}{script}");
    let call = [&["run", &path, "0.0"], arguments].concat();
    let done = fir(&call, b"");
    let begin = format!("DONE {expected} after ");
    assert!(
        done.text().starts_with(&begin),
        "{arguments:?}: {}",
        done.text()
    );
}

#[test]
fn defrost_follows_its_thresholds() {
    // Below two degrees and not at it, by a frosted coil and by the hours alone.
    gives("defrost.fir", &["19", "-70", "41"], 1);
    gives("defrost.fir", &["20", "-70", "41"], 0);
    gives("defrost.fir", &["19", "0", "181"], 1);
    gives("defrost.fir", &["20", "0", "181"], 0);
    gives("defrost.fir", &["110", "-75", "240"], 0);
    // A coil more than 8.0 degrees colder, more than 40 minutes after the last one.
    gives("defrost.fir", &["10", "-70", "41"], 0);
    gives("defrost.fir", &["11", "-70", "41"], 1);
    gives("defrost.fir", &["-50", "-131", "41"], 1);
    gives("defrost.fir", &["11", "-70", "40"], 0);
    // More than 180 minutes.
    gives("defrost.fir", &["10", "0", "181"], 1);
    gives("defrost.fir", &["10", "0", "180"], 0);
}

#[test]
fn energy_adds_up_all_readings_beyond_32_bits() {
    gives("energy.fir", &["0", "900", "[]"], 0);
    gives("energy.fir", &["2147483647", "1", "[1]"], 2_147_483_648);
    gives("energy.fir", &["-2147483648", "1", "[-1]"], -2_147_483_649);
    let year = "[1000000,1000000,1000000,1000000,1000000,1000000,1000000,1000000,\
                1000000,1000000,1000000,1000000,1000000,1000000,1000000,1000000]";
    gives("energy.fir", &["5", "31536000", year], 504_576_000_000_005);
}

#[test]
fn levels_shows_each_what_its_level_allows() {
    let path = format!("{EXAMPLES}levels.fir");
    let shown = ["[5120]", "[5120, 840]", "[5120, 840, 37]"];
    for (level, name) in ["portal", "staff", "factory"].iter().enumerate() {
        for (version, items) in shown.iter().enumerate() {
            let entry = format!("0.{version}");
            let call = ["run", &path, &entry, "[5120,840,37]", "--level", name];
            let done = fir(&call, b"");
            let expected = if version <= level {
                format!("DONE {items} after ")
            } else {
                "refused by 19 at 0: ".to_string()
            };
            assert!(done.text().starts_with(&expected), "{}", done.text());
        }
    }
}

#[test]
fn a_call_up_in_levels_is_refused_as_its_comment_says() {
    let text = fs::read_to_string(format!("{EXAMPLES}levels.fir")).expect("it is there");
    let wrong = text.replace(
        "r2 = call 2.0(r0)\n    r1 = vec [r2]\n",
        "r1 = call 1.0(r0)\n",
    );
    assert_ne!(wrong, text);
    let image = text::assemble(&wrong).expect("a text that is well formed");
    let said = fir(&["check", "-"], &image).text();
    let words = "CALL of 1.0 goes up: 1.2 is of level portal, and 1.0 of factory\n";
    assert!(said.starts_with("refused by 18 at "), "{said}");
    assert!(said.ends_with(words), "{said}");
}

#[test]
fn heating_follows_the_outdoor_temperature_up_to_its_limit() {
    gives("heating.fir", &["0", "200"], 300);
    gives("heating.fir", &["-78", "210"], 350);
    gives("heating.fir", &["-80", "210"], 350);
    gives("heating.fir", &["230", "210"], 200);
}

#[test]
fn water_reads_either_sensor() {
    for tank in ["441", "[441]", "[441,31]"] {
        gives("water.fir", &[tank, "500"], 59);
        gives("water.fir", &[tank, "441"], 0);
        gives("water.fir", &[tank, "440"], 0);
    }
}

#[test]
fn house_is_heating_and_water_joined() {
    let image = |script| fir(&["asm", &format!("{EXAMPLES}{script}")], b"").output;
    let (heating, water, house) = (image("heating.fir"), image("water.fir"), image("house.fir"));
    assert_eq!(reference::join(&heating, &water, house.len()), Ok(house));
    let out = concat!(env!("CARGO_TARGET_TMPDIR"), "/house.fir");
    let [heating, water] = ["heating.fir", "water.fir"].map(|name| format!("{EXAMPLES}{name}"));
    assert_eq!(fir(&["join", &heating, &water, "-o", out], b"").status, 0);
    let written = fs::read_to_string(out).expect("the text is written");
    let stored = fs::read_to_string(format!("{EXAMPLES}house.fir")).expect("it is there");
    assert!(stored.ends_with(&format!("\n\n{written}")), "{written}");
}

#[test]
fn pump_follows_each_of_the_three_rooms() {
    for (script, warm) in [("pump.fir", -30), ("pump_later.fir", 0)] {
        gives(script, &["210", "[210,210,210]"], 0);
        gives(script, &["210", "[200,210,210]"], 10);
        gives(script, &["210", "[210,190,210]"], 20);
        gives(script, &["210", "[210,210,209]"], 1);
        for rooms in ["[240,210,210]", "[210,240,210]", "[210,210,240]"] {
            gives(script, &["210", rooms], warm);
        }
    }
}

/// The bytes of an array of an example in C.
fn array(source: &str, name: &str) -> Vec<u8> {
    let begin = format!("static const uint8_t {name}[] = {{");
    let (_, behind) = source.split_once(&begin).expect("the array is there");
    let (array, _) = behind.split_once("};").expect("the array ends");
    let lines = array
        .lines()
        .map(|line| line.split("/*").next().unwrap_or(""));
    let numbers = lines.flat_map(|line| line.split(',')).map(str::trim);
    let numbers = numbers.filter(|number| !number.is_empty());
    numbers.map(|n| n.parse().expect("a byte")).collect()
}

#[test]
fn the_images_of_update_are_those_of_its_scripts() {
    let source = fs::read_to_string(format!("{EXAMPLES}update.c")).expect("it is there");
    for (name, script) in [("pump", "pump.fir"), ("later", "pump_later.fir")] {
        let image = fir(&["asm", &format!("{EXAMPLES}{script}")], b"").output;
        assert_eq!(array(&source, name), image, "{name}");
    }
}

#[test]
fn the_image_of_stored_is_that_of_its_script_in_32_bits() {
    let source = fs::read_to_string(format!("{EXAMPLES}stored.c")).expect("it is there");
    let image = fir(&["asm", &format!("{EXAMPLES}pump.fir")], b"").output;
    let old = reference::move_from(reference::Form::Wide, &image, image.len());
    assert_eq!(Ok(array(&source, "stored")), old);
}

#[test]
fn riser_finds_the_greatest_demand_at_each_place() {
    for place in 0..16 {
        let demands: Vec<i64> = (0..16).map(|riser| i64::from(riser == place)).collect();
        gives("riser.fir", &[&format!("{demands:?}")], place);
    }
    gives("riser.fir", &["[-5,-3,-4]"], 1);
    gives("riser.fir", &["[7]"], 0);
    gives("riser.fir", &["[1,2,3,4,5]"], 4);
}

#[test]
fn setback_follows_the_hour_and_the_frost() {
    for hour in 0..24 {
        let night = !(6..22).contains(&hour);
        gives(
            "setback.fir",
            &["20", &hour.to_string()],
            if night { 80 } else { 0 },
        );
        gives(
            "setback.fir",
            &["-51", &hour.to_string()],
            if night { 30 } else { 0 },
        );
    }
    gives("setback.fir", &["-50", "3"], 80);
}

#[test]
fn spread_takes_either_sensor_at_either_place() {
    let (flow, back) = (["350", "[350,29]"], ["290", "[290,31]"]);
    for (number, (back, flow)) in back
        .iter()
        .flat_map(|back| flow.map(|flow| (back, flow)))
        .enumerate()
    {
        gives("spread.fir", &[flow, back], 60);
        let path = format!("{EXAMPLES}spread.fir");
        let done = fir(&["run", &path, "0.0", flow, back, "--stats"], b"");
        let looked = format!("looked at {} of 4 versions\n", number + 1);
        assert!(done.text().ends_with(&looked), "{}", done.text());
    }
}

#[test]
fn the_commands_of_the_readme_print_what_it_shows() {
    let commands = shown(include_str!("../../README.md"), "    ");
    let (with_output, without): (Vec<_>, Vec<_>) =
        commands.iter().partition(|shown| !shown.output.is_empty());
    assert_eq!((with_output.len(), without.len()), (13, 7));
    for command in with_output {
        assert_printed(command, "README");
    }
}
