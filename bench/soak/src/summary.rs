//! What is printed at the end of a run without a difference.

use plain_season::Deduction;

use crate::Soak;
use crate::hostile::Seen;
use crate::plans::{Beside, OfRule, Worst};
use crate::rule;
use crate::run::{ASKED, Tally};

fn answers(tally: &Tally) {
    println!("answers, 0 for taken:");
    for (name, answers) in ASKED.iter().zip(tally.answers) {
        let answers = answers.iter().enumerate().filter(|(_, count)| **count > 0);
        let words: Vec<String> = answers.map(|(n, count)| format!("{n}: {count}")).collect();
        println!("  {name:<8} {}", words.join(", "));
    }
    println!("  {} texts of 65,536 bytes were taken", tally.longest_taken);
    let [written, taken] = tally.longest_logs;
    println!("  {written} logs of 65,536 bytes were written, and {taken} were taken");
    println!(
        "  {} refused texts were told a sail, each the one on its line",
        tally.sails_told
    );
}

fn states(seen: &Seen) {
    let Seen { states, valid, .. } = seen;
    println!("{states} states, {valid} of them valid; of the others, those that break");
    println!("   it alone  with others");
    for (i, name) in rule::names().iter().enumerate() {
        println!("{:>11} {:>12}  {name}", seen.alone[i], seen.with_others[i]);
    }
    let (count, least) = (seen.alone.len(), seen.alone.iter().min());
    let least = least.expect("there are sentences");
    println!("each of these {count} sentences was broken alone at least {least} times");
}

fn worst(worst: &Worst) {
    let Worst {
        compared,
        none_legal,
        totals_part,
        dirty_evictions_part,
        ..
    } = worst;
    println!(
        "the bound holds under both rules beside {compared} cheapest plans; {none_legal} times no plan was legal"
    );
    println!(
        "the rules make different totals of {totals_part} small seasons, and different counts of dirty evictions of {dirty_evictions_part}"
    );
    for (rule, worst) in Deduction::ALL.into_iter().zip(&worst.of_rule) {
        worst_of_rule(rule.word(), worst);
    }
}

fn worst_of_rule(rule: &str, worst: &OfRule) {
    println!("the worst total × (k − h + 1) / (k × cheapest) of {rule}, for h from 1 to k:");
    for (k, row) in worst.by_sizes.iter().enumerate() {
        let ratio = |beside: &Option<Beside>| match beside {
            Some(beside) => format!("{:.3}", beside.ratio()),
            None => "-".to_string(),
        };
        let ratios: Vec<String> = row[..=k].iter().map(ratio).collect();
        println!("  k {}:  {}", k + 1, ratios.join(" "));
    }
    let sharpest = worst.sharpest;
    println!("the worst of the sharper line, with the load credits on the left: {sharpest:.3}");
    let rows = worst.by_sizes.iter();
    let above_one = rows.flat_map(|row| row[1..].iter().flatten());
    if let Some(beside) = above_one.max_by(|a, b| a.ratio().total_cmp(&b.ratio())) {
        let Beside { left, right, text } = beside;
        println!("the worst with h above 1, {left} / {right}, with a cheapest plan:");
        text.lines()
            .for_each(|line| println!("{}", format!("  {line}").trim_end()));
    }
}

pub fn print(soak: &Soak) {
    answers(&soak.tally);
    states(&soak.seen);
    worst(&soak.worst);
    let [seasons, texts, states, plans, sentences, logs] = soak.done;
    let (questions, time) = (soak.tally.questions(), soak.begun.elapsed());
    println!(
        "seed {}: {seasons} seasons, {texts} texts, {states} hostile states, {plans} small seasons beside their cheapest plans, \
         {sentences} sentences, {logs} lists of steps: {questions} answers compared in {} s, no difference",
        soak.seed,
        time.as_secs()
    );
}
