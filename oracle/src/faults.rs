//! The faults of a sheet whose lines are each in order: references (7), uses (8, 12), ids (13) and struct fields (9).
use crate::kinds::{expr, step};
use crate::refusals::{CACHE_ID, REFERENCE, REUSED, STRUCT_FIELD, UNUSED};
use crate::sheet::Sheet;

pub fn check(sheet: &Sheet) -> Result<(), u8> {
    if !references_fit(sheet) {
        return Err(REFERENCE);
    }
    check_uses(sheet)?;
    if !ids_differ(sheet) {
        return Err(CACHE_ID);
    }
    if !struct_fields_fit(sheet) {
        return Err(STRUCT_FIELD);
    }
    Ok(())
}

/// Children and inputs are earlier lines of their own letter, no input is a Sink, every expression is a line.
fn references_fit(sheet: &Sheet) -> bool {
    let children_fit = sheet.exprs.iter().enumerate().all(|(index, line)| {
        let mut children = line.children.iter();
        children.all(|&child| usize::from(child) < index)
    });

    let steps_fit = sheet.steps.iter().enumerate().all(|(index, line)| {
        let mut inputs = line.inputs.iter().map(|&input| usize::from(input));
        inputs.all(|input| input < index && sheet.steps[input].kind != step::SINK)
            && line.all_exprs().all(|expr| usize::from(expr) < sheet.exprs.len())
    });

    children_fit && steps_fit
}

/// Each expression is named once; each step but a Sink is named, and once only unless it is a Cache. The first line that is
/// not decides, expressions before steps.
fn check_uses(sheet: &Sheet) -> Result<(), u8> {
    let mut expr_uses = vec![0; sheet.exprs.len()];
    let children = sheet.exprs.iter().flat_map(|line| line.children.iter().copied());
    let entries = sheet.steps.iter().flat_map(|line| line.all_exprs());
    for expr in children.chain(entries) {
        expr_uses[usize::from(expr)] += 1;
    }

    let mut step_uses = vec![0; sheet.steps.len()];
    for input in sheet.steps.iter().flat_map(|line| &line.inputs) {
        step_uses[usize::from(*input)] += 1;
    }

    expr_uses.into_iter().try_for_each(once)?;
    sheet.steps.iter().zip(step_uses).try_for_each(|(line, uses)| match line.kind {
        step::SINK => Ok(()),
        step::CACHE => once(uses.min(1)),
        _ => once(uses),
    })
}

fn once(uses: usize) -> Result<(), u8> {
    match uses {
        0 => Err(UNUSED),
        1 => Ok(()),
        _ => Err(REUSED),
    }
}

/// No two Cache lines have one id.
fn ids_differ(sheet: &Sheet) -> bool {
    let mut ids: Vec<u8> = sheet.steps.iter().filter(|line| line.kind == step::CACHE).map(|line| line.a).collect();
    let caches = ids.len();
    ids.sort_unstable();
    ids.dedup();
    ids.len() == caches
}

/// Going up from each StructField, a StructEval is entered through an evaluation child.
fn struct_fields_fit(sheet: &Sheet) -> bool {
    // The one line that names each expression as a child, and the place among its children.
    let mut parents = vec![None; sheet.exprs.len()];
    for (index, line) in sheet.exprs.iter().enumerate() {
        for (place, &child) in line.children.iter().enumerate() {
            parents[usize::from(child)] = Some((index, place));
        }
    }

    let in_evaluation = |field: usize| {
        let mut current = field;
        while let Some((parent, place)) = parents[current] {
            if sheet.exprs[parent].kind == expr::STRUCT_EVAL && place >= 1 {
                return true;
            }
            current = parent;
        }
        false
    };

    let mut lines = sheet.exprs.iter().enumerate();
    lines.all(|(index, line)| line.kind != expr::STRUCT_FIELD || in_evaluation(index))
}
