//! The scripts of docs/EXAMPLES.md, carried out by the reference engine, so that it is held to the documents and not to the code.
use crate::entries::{window_answer, BoardMake, Entry, Parameters, PlanMake, Side, Slot, Window};
use crate::reference::{Closed, Day};

const OPENING_A: [&str; 4] = [
    "plan fixed 1 0 -> ok",
    "board ladder 16 -> ok",
    "listed -> ok",
    "open 0 1000 100 1300 700 -> ok quotation 1000",
];

/// Carries out every script of the page. The number of lines whose result was compared.
pub fn check(page: &str) -> Result<usize, String> {
    let mut lines = 0;
    for block in page.split("```script\n").skip(1) {
        let block = block.split("```").next().unwrap_or("");
        // add and take act on a board outside any day, which the reference engine does not have
        if block.contains("\nadd ") || block.contains("\ntake ") {
            continue;
        }
        lines += carry_out(block)?;
    }
    Ok(lines)
}

/// A script is carried out anew from its start for each of its lines, so that no state outlives a line.
fn carry_out(block: &str) -> Result<usize, String> {
    let lines: Vec<&str> = block
        .lines()
        .flat_map(|line| if line == "# opening A" { OPENING_A.to_vec() } else { vec![line] })
        .collect();
    let mut script = Script::new();
    let mut day: Option<Day> = None;
    let plans: Vec<PlanMake> = plans_of(&lines);
    let mut last = "";
    let mut count = 0;
    for (place, line) in lines.iter().enumerate() {
        if *line == "# the line above 65534 times more" {
            // the boundary is tested with 65,535 orders in full_level
            return Ok(count);
        }
        let Some((command, result)) = line.split_once(" -> ") else {
            continue;
        };
        let found = script.line(command, &mut day, &plans[place]);
        if found != result {
            return Err(format!("after {last}: {command} -> {found}, and the page has {result}"));
        }
        last = command;
        count += 1;
    }
    Ok(count)
}

/// The plan that holds after each line; refused ones change nothing.
fn plans_of(lines: &[&str]) -> Vec<PlanMake> {
    let mut plan = PlanMake::Announced { windows: Vec::new() };
    let mut plans = Vec::new();
    for line in lines {
        let (command, result) = line.split_once(" -> ").unwrap_or((line, ""));
        let words: Vec<&str> = command.split(' ').collect();
        let figure = |i: usize| words[i].parse().expect("a figure");
        match (words[0], result) {
            ("plan", "ok") if words[1] == "fixed" => {
                plan = PlanMake::Fixed { days: figure(2), group: figure(3) };
            }
            ("plan", "ok") => plan = PlanMake::Announced { windows: Vec::new() },
            ("window", "ok") => {
                if let PlanMake::Announced { windows } = &mut plan {
                    windows.push(window(&words));
                }
            }
            _ => {}
        }
        plans.push(plan.clone());
    }
    plans
}

fn window(words: &[&str]) -> Window {
    let figure = |i: usize| words[i].parse::<u32>().expect("a figure");
    Window {
        start: figure(1),
        end: figure(2),
        session: figure(3) as u8,
        bounding: u8::from(words[4] == "bounded"),
        k: figure(5),
    }
}

struct Script {
    board: BoardMake,
    windows: Vec<Window>,
    closed: Closed,
}

impl Script {
    fn new() -> Script {
        Script {
            board: BoardMake::Ladder { count: 16 },
            windows: Vec::new(),
            closed: Closed::NEWLY_LISTED,
        }
    }

    fn line<'a>(&mut self, command: &str, day: &mut Option<Day<'a>>, plan: &'a PlanMake) -> String {
        let words: Vec<&str> = command.split_whitespace().collect();
        let figure = |i: usize| words[i].parse::<u32>().expect("a figure");
        let side = |i: usize| if words[i] == "buy" { Side::Buy } else { Side::Sell };
        match words[0] {
            "plan" if words[1] == "fixed" => {
                done(PlanMake::Fixed { days: figure(2), group: figure(3) }.first_test())
            }
            "plan" => {
                self.windows.clear();
                done(Ok(()))
            }
            "window" => {
                let new = window(&words);
                let answer = window_answer(&self.windows, &new);
                if answer.is_ok() {
                    self.windows.push(new);
                }
                done(answer)
            }
            "session" => slot_text(plan.slot(figure(1))),
            "board" => {
                let board = match words[1] {
                    "ladder" => BoardMake::Ladder { count: figure(2) },
                    _ => BoardMake::Grid { start: figure(2) },
                };
                if board.first_test().is_ok() {
                    self.board = board;
                }
                done(board.first_test())
            }
            "listed" => {
                self.closed = Closed::NEWLY_LISTED;
                done(Ok(()))
            }
            "open" => {
                let given = Parameters { sp: figure(2), l: figure(3), ur: figure(4), lr: figure(5) };
                match Day::open(self.closed, self.board, plan, figure(1), given) {
                    Ok(open) => {
                        let text = format!("ok quotation {}", open.quotation());
                        *day = Some(open);
                        text
                    }
                    Err(number) => done(Err(number)),
                }
            }
            "limits" => match open(day).limits(words[1] == "dynamic", figure(2)) {
                Ok((lower, upper)) => format!("{lower} {upper}"),
                Err(number) => done(Err(number)),
            },
            "levels" => levels_text(day.as_ref(), side(1)),
            "close" => {
                self.closed = open(day).close();
                *day = None;
                let Closed { quotation, up_left, down_left } = self.closed;
                format!("quotation {} up {up_left} down {down_left}", quotation.unwrap_or(0))
            }
            _ => {
                let (answer, quotation) = open(day).send(&entry(&words));
                format!("{answer} {quotation}")
            }
        }
    }
}

fn open<'a, 'b>(day: &'b mut Option<Day<'a>>) -> &'b mut Day<'a> {
    day.as_mut().expect("an open day")
}

fn done(answer: Result<(), u8>) -> String {
    match answer {
        Ok(()) => "ok".to_string(),
        Err(number) => format!("refused {number}"),
    }
}

fn slot_text(slot: Slot) -> String {
    let name = |session: u8| ["", "morning", "main", "evening", "weekend"][usize::from(session)];
    match slot {
        Slot::NoSession => "none".to_string(),
        Slot::Free { session } => format!("{} free", name(session)),
        Slot::Bounded { session, k } => format!("{} bounded {k}", name(session)),
    }
}

fn levels_text(day: Option<&Day>, side: Side) -> String {
    let levels = day.map_or(Vec::new(), |day| day.levels(side));
    let texts: Vec<String> = levels
        .iter()
        .map(|level| format!("{}:{}:{}", level.price, level.orders, level.since))
        .collect();
    if texts.is_empty() { "none".to_string() } else { texts.join(" ") }
}

/// The entry of a script line.
pub fn entry(words: &[&str]) -> Entry {
    let figure = |i: usize| words[i].parse::<u32>().expect("a figure");
    let side = |i: usize| if words[i] == "buy" { Side::Buy } else { Side::Sell };
    let time = figure(1);
    match words[0] {
        "clock" => Entry::Clock { time },
        "post" => Entry::Post { time, side: side(2), mode: figure(3) as u8, price: figure(4) },
        "leave" => Entry::Leave { time, side: side(2), price: figure(3) },
        "trade" => Entry::Trade { time, mode: figure(2) as u8, price: figure(3), quantity: figure(4) },
        "parameters" => {
            let set = Parameters { sp: figure(2), l: figure(3), ur: figure(4), lr: figure(5) };
            Entry::Parameters { time, set }
        }
        "reference" => Entry::Reference { time, session: figure(2) as u8, price: figure(3) },
        "ruling" => Entry::Ruling { time, price: figure(2) },
        other => panic!("no entry: {other}"),
    }
}
