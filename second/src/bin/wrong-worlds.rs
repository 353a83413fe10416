//! Prints the wrong worlds: for each of them the claims that fail, each with
//! its first counterexample, and the worked runs that come out otherwise.

use second::worked;
use second::worlds::claims::Claim;
use second::worlds::search::{counterexample, runs};
use second::worlds::wrong::worlds;
use second::worlds::World;

fn main() {
    for world in worlds() {
        print_world(world);
    }
}

fn print_world(world: &World) {
    println!("{}", world.name);
    let runs = runs(&world.rules);
    for &claim in world.breaks {
        match counterexample(claim, &runs, &world.rules) {
            Some(found) => println!("    {claim}: {found}"),
            None => println!("    {claim}: no counterexample"),
        }
    }
    let differs =
        |name: &&'static str| counterexample(Claim::WorkedRun(name), &[], &world.rules).is_some();
    let names: Vec<_> = worked::runs().map(|(name, _)| name).into_iter().filter(differs).collect();
    if !names.is_empty() {
        println!("    worked runs that differ: {}", names.join(", "));
    }
}
