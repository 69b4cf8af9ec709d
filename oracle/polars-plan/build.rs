//! Takes the ported files from `upstream/`, puts the counters in, and cuts out the methods that they call.
//! Each place is looked for in the text and has to be there exactly once.
use std::path::{Path, PathBuf};
use std::{env, fs};

const VISIT: &str = "    fn simplify_ir_node_orders(&mut self, current_ir_node: Node) -> bool {\n";
const REMOVAL: &str =
    "    fn unlink_node(&mut self, current_ir_node: Node, input_to_current_ir_node: Node) -> bool {\n";
const LOOK: &str = "    fn rec(&mut self, current_ae_node: Node, recursion: RecursionState) -> ObservableOrders {\n";
const LIST: &str = "    pub fn simplify_projected_exprs(\n";

/// Stands in for the function that looks at a list: calls it and reports what it did.
const WATCHED_LIST: &str = "
impl ExprOrderSimplifier<'_> {
    pub fn simplify_projected_exprs(
        &mut self,
        ae_nodes: &[Node],
        allow_deordering_top: bool,
    ) -> ObservableOrders {
        let looks_before = crate::watch::looks();
        let answer = self.simplify_projected_exprs_unwatched(ae_nodes, allow_deordering_top);
        crate::watch::list(|step, visit| crate::watch::ListLook {
            visit,
            step,
            entries: ae_nodes.to_vec(),
            allow_deordering_top,
            answer: answer.bits(),
            internally_observed: self.internally_observed.bits(),
            looks: crate::watch::looks() - looks_before,
            records_after: self.expr_arena.clone(),
        });
        answer
    }
}
";

fn main() {
    let upstream = Path::new(&env::var("CARGO_MANIFEST_DIR").unwrap()).join("../upstream/src/plans");
    let out = PathBuf::from(env::var("OUT_DIR").unwrap());
    println!("cargo::rerun-if-changed={}", upstream.display());

    let module = upstream.join("optimizer/simplify_ordering");
    let copies = out.join("simplify_ordering");
    fs::create_dir_all(&copies).unwrap();

    let text = read(&module.join("mod.rs"));
    let text = insert_after(&text, VISIT, "crate::watch::visit(current_ir_node);\n");
    let text = insert_after(&text, REMOVAL, "crate::watch::removal(current_ir_node);\n");
    write(&copies.join("mod.rs"), &text);

    let text = read(&module.join("expr.rs"));
    let text = insert_after(&text, LOOK, "crate::watch::look();\n");
    let place = only_place(&text, LIST);
    let text =
        [&text[..place], "    fn simplify_projected_exprs_unwatched(\n", &text[place + LIST.len()..], WATCHED_LIST];
    write(&copies.join("expr.rs"), &text.concat());

    for name in ["ir_graph.rs", "ir_node_key.rs"] {
        write(&copies.join(name), &read(&module.join(name)));
    }

    let text = read(&upstream.join("options.rs"));
    let flags =
        between(&text, "bitflags!(\n", "#[derive(Clone, Copy, PartialEq, Eq, Debug, Hash)]\npub enum CastingRules {\n");
    write(&out.join("function_flags.rs"), flags);

    let text = read(&upstream.join("functions/mod.rs"));
    let methods = between(&text, "    pub fn is_order_producing(", "impl Debug for FunctionIR {\n");
    write(&out.join("function_ir.rs"), &format!("impl FunctionIR {{\n{methods}"));
}

fn read(path: &Path) -> String {
    fs::read_to_string(path).unwrap_or_else(|error| panic!("{}: {error}", path.display()))
}

fn write(path: &Path, text: &str) {
    fs::write(path, text).unwrap_or_else(|error| panic!("{}: {error}", path.display()))
}

fn only_place(text: &str, part: &str) -> usize {
    let places: Vec<usize> = text.match_indices(part).map(|(place, _)| place).collect();
    assert_eq!(places.len(), 1, "not exactly once in the text: {part}");
    places[0]
}

fn insert_after(text: &str, part: &str, insertion: &str) -> String {
    let end = only_place(text, part) + part.len();
    [&text[..end], insertion, &text[end..]].concat()
}

fn between<'a>(text: &'a str, from: &str, to: &str) -> &'a str {
    &text[only_place(text, from)..only_place(text, to)]
}
