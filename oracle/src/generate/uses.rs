//! A valid sheet with one to four lines that are named by none or too often, or Cache lines that share an id. Every
//! reference stays right.
use super::random::Random;
use super::valid;
use crate::kinds::step::{CACHE, SCAN, SELECT, SINK};
use crate::sheet::{ExprLine, Sheet, StepLine};
use crate::tables::step_row;

pub fn uses(random: &mut Random) -> Sheet {
    let mut sheet = valid(random);
    // Where lines are named wrongly, ids are not asked for.
    if random.chance(15) {
        shared_id(random, &mut sheet);
        return sheet;
    }
    for _ in 0..random.between(1, 4) {
        match random.below(7) {
            0 => unused_expr(random, &mut sheet),
            1 => reused_expr(random, &mut sheet),
            2 => other_child(random, &mut sheet),
            3 => unused_step(random, &mut sheet),
            4 => reused_step(random, &mut sheet),
            5 => other_input(random, &mut sheet),
            _ => shared_id(random, &mut sheet),
        }
    }
    sheet
}

/// A Column that nothing names, between any two lines.
fn unused_expr(random: &mut Random, sheet: &mut Sheet) {
    let place = random.between(0, sheet.exprs.len());
    for line in &mut sheet.exprs {
        make_room(&mut line.children, place);
    }
    for line in &mut sheet.steps {
        make_room(&mut line.exprs, place);
        make_room(&mut line.more_exprs, place);
    }
    sheet.exprs.insert(place, ExprLine { length_preserving: 1, ..ExprLine::default() });
}

/// One more entry of a Select.
fn reused_expr(random: &mut Random, sheet: &mut Sheet) {
    let exprs = sheet.exprs.len();
    let most = *step_row(SELECT, 0).unwrap().counts[1].end();
    let selects = sheet.steps.iter_mut().filter(|line| line.kind == SELECT && line.exprs.len() < most);
    let mut selects: Vec<&mut StepLine> = selects.collect();
    if exprs > 0 && !selects.is_empty() {
        let select = random.below(selects.len());
        selects[select].exprs.push(random.below(exprs) as u8);
    }
}

/// A child becomes another earlier line: one line may lose its only use, one may get a second.
fn other_child(random: &mut Random, sheet: &mut Sheet) {
    let parents: Vec<usize> = (0..sheet.exprs.len()).filter(|&line| !sheet.exprs[line].children.is_empty()).collect();
    if !parents.is_empty() {
        let line = *random.pick(&parents);
        let children = &mut sheet.exprs[line].children;
        let place = random.below(children.len());
        children[place] = random.below(line) as u8;
    }
}

/// A Scan that nothing names, between any two lines.
fn unused_step(random: &mut Random, sheet: &mut Sheet) {
    let place = random.between(0, sheet.steps.len());
    for line in &mut sheet.steps {
        make_room(&mut line.inputs, place);
    }
    sheet.steps.insert(place, StepLine { kind: SCAN, ..StepLine::default() });
}

/// One more Sink, over any step that may be named.
fn reused_step(random: &mut Random, sheet: &mut Sheet) {
    let input = earlier_step(random, sheet, sheet.steps.len());
    sheet.steps.push(StepLine { kind: SINK, inputs: vec![input], ..StepLine::default() });
}

/// An input becomes another earlier step.
fn other_input(random: &mut Random, sheet: &mut Sheet) {
    let consumers: Vec<usize> = (0..sheet.steps.len()).filter(|&line| !sheet.steps[line].inputs.is_empty()).collect();
    let line = *random.pick(&consumers);
    let input = earlier_step(random, sheet, line);
    let inputs = &mut sheet.steps[line].inputs;
    let place = random.below(inputs.len());
    inputs[place] = input;
}

/// Two steps of one input and no expression become Cache lines with one id, unless there are not two.
fn shared_id(random: &mut Random, sheet: &mut Sheet) {
    let fits = |line: &StepLine| line.kind != SINK && line.inputs.len() == 1 && line.all_exprs().next().is_none();
    let lines: Vec<usize> = (0..sheet.steps.len()).filter(|&line| fits(&sheet.steps[line])).collect();
    if lines.len() < 2 {
        return;
    }
    let id = random.byte();
    for _ in 0..2 {
        let line = &mut sheet.steps[*random.pick(&lines)];
        let inputs = std::mem::take(&mut line.inputs);
        *line = StepLine { kind: CACHE, a: id, inputs, ..StepLine::default() };
    }
}

/// Some step before that place that is no Sink; the first never is one.
fn earlier_step(random: &mut Random, sheet: &Sheet, place: usize) -> u8 {
    let steps: Vec<usize> = (0..place).filter(|&step| sheet.steps[step].kind != SINK).collect();
    *random.pick(&steps) as u8
}

fn make_room(references: &mut [u8], place: usize) {
    for reference in references {
        if usize::from(*reference) >= place {
            *reference += 1;
        }
    }
}
