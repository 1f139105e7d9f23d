//! Every hand-written case gives the number and place that the papers give.

use blink_reference::generate::edges;
use blink_reference::question::ask;

#[test]
fn edges_answer_as_the_papers_say() {
    let wrong: Vec<String> = edges()
        .iter()
        .filter_map(|edge| {
            let given = ask(&edge.table, edge.settings(), &edge.question).verdicts();
            (given != edge.verdicts).then(|| {
                let (kind, due) = (edge.question.kind, &edge.verdicts);
                format!("{kind:?} {}: {given:?}, due {due:?}", edge.name)
            })
        })
        .collect();
    assert!(wrong.is_empty(), "{}", wrong.join("\n"));
}
