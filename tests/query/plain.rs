// The query rules of document 01 once more, written plainly and by another road than the proved check: the bytes are first
// cut into steps, and each step is then held to the document's sentences, the nearest main-path step looked for backwards.
// Every reason is judged by itself, whether or not another applies, and the lowest is looked for at the end.

/// "at most 32 steps"
pub const MOST_STEPS: usize = 32;

pub struct Step {
    pub axis: u8,
    pub role: u8,
    pub on: usize,
    pub zeros: [u8; 3],
}

#[derive(Clone, Copy, Debug, PartialEq, Eq)]
pub enum Answer {
    Admitted,
    Nine,
    Ten { step: usize, reason: usize },
}

fn steps_of(query: &[u8]) -> Vec<Step> {
    query.chunks(8).map(|b| Step { axis: b[0], role: b[1], on: b[2] as usize, zeros: [b[3], b[6], b[7]] }).collect()
}

// Whether a step hangs on what it may not. A later step whose role is neither of the two hangs on what neither may.
fn hangs_wrong(steps: &[Step], number: usize) -> bool {
    let Step { role, on, .. } = steps[number - 1];
    if number == 1 {
        return on != 0;
    }
    let nearest = (1..number).rev().find(|&m| steps[m - 1].role == 1);
    let (main, predicate) = (Some(on) != nearest, on == 0 || on >= number);
    match role {
        1 => main,
        0 => predicate,
        _ => main && predicate,
    }
}

// Every reason that applies to a step. `number` counts from 1.
fn reasons(steps: &[Step], number: usize) -> Vec<usize> {
    let step = &steps[number - 1];
    // "Step 1 is on the main path and hangs on 0."
    let roles: &[u8] = if number == 1 { &[1] } else { &[0, 1] };
    let judged = [
        (4, step.zeros != [0, 0, 0]),
        (3, hangs_wrong(steps, number)),
        (2, !roles.contains(&step.role)),
        (1, ![1, 2].contains(&step.axis)),
    ];
    judged.iter().filter(|(_, applies)| *applies).map(|(reason, _)| *reason).collect()
}

/// Every reason that applies to this step of a query of whole steps.
pub fn reasons_at(query: &[u8], step: usize) -> Vec<usize> {
    reasons(&steps_of(query), step)
}

pub fn answer(query: &[u8]) -> Answer {
    if query.is_empty() || query.len() % 8 != 0 || query.len() > 8 * MOST_STEPS {
        return Answer::Nine;
    }
    let steps = steps_of(query);
    // "With refusal 10 comes a reason, the lowest that applies to the first step at fault."
    let lowest = |step| reasons(&steps, step).into_iter().min().map(|reason| Answer::Ten { step, reason });
    (1..=steps.len()).find_map(lowest).unwrap_or(Answer::Admitted)
}
