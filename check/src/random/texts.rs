//! Random texts for `shelf`.

use super::damage::damaged;
use super::layered::layered_record;
use super::tables::{require_a_ring, spoil, Recipe, World};
use super::Random;
use crate::model::{Field, Rule, Tables};

/// A random text: sound, not sound, or with a fault.
pub fn text(seed: u64) -> Vec<u8> {
    let mut random = Random::new(seed ^ 0x7465_7874);
    let size = random.pick(&[1, 2, 3, 5, 8, 15, 30, 127, 135]);
    let world = World::new(size, &mut random);
    let recipe = any_recipe(&world, &mut random);
    let record = match random.one_in(4) {
        true => layered_record(world.some_edits(recipe.edits, &mut random), &mut random),
        false => world.record(recipe, &mut random),
    };
    let mut tables = Tables::from(&record);
    if random.one_in(10) {
        require_a_ring(&mut tables, &world.some_edits(2, &mut random));
    }
    while random.one_in(3) {
        spoil(&mut tables, &world, &mut random);
    }
    let mut lines = lines(&tables);
    if random.one_in(12) && !lines.is_empty() {
        let (from, to) = (random.below(lines.len()), random.below(lines.len()));
        lines.swap(from, to);
    }
    written(lines, &mut random)
}

/// Records of every size, those at the limits among them.
fn any_recipe(world: &World, random: &mut Random) -> Recipe {
    let full = world.edits.len() > 100;
    let many = random.pick(&[120, 126, 127, 127, 127, 128, 135]);
    let edits = if full { many.min(world.edits.len()) } else { world.edits.len() };
    let constraints = match random.below(4) {
        0 | 1 if full => random.pick(&[505, 511, 512, 512, 512, 513, 520]),
        1 => 0,
        _ => random.below(edits * 3),
    };
    Recipe {
        edits,
        constraints,
        decisions: random.pick(&[0, 0, 10, 40]),
        noncommuting: random.pick(&[0, 20, 60]),
        straight: !random.one_in(3),
    }
}

/// The lines of tables with any numbers. What has no word gets a wrong one.
fn lines(tables: &Tables) -> Vec<String> {
    let edits = tables.edits.iter().map(|row| {
        let (name, place, value) = (row.name, row.place, row.value);
        let field = Field::ALL.get(row.field as usize).map_or("kind", |field| field.word());
        match row.kind {
            0 => format!("edit={name} do=insert chip={place}"),
            1 => format!("edit={name} do=set chip={place} field={field} value={value}"),
            2 => format!("edit={name} do=remove chip={place}"),
            _ => format!("edit={name} do=erase chip={place}"),
        }
    });
    let constraints = tables.constraints.iter().map(|row| {
        let rule = Rule::ALL.get(row.rule as usize).map_or("after", |rule| rule.word());
        format!("left={} rule={rule} right={}", row.left, row.right)
    });
    edits.chain(constraints).collect()
}

fn written(lines: Vec<String>, random: &mut Random) -> Vec<u8> {
    let mut text = Vec::new();
    let damage_at = random.one_in(6).then(|| random.below(lines.len() + 1));
    for (place, line) in lines.iter().enumerate() {
        if damage_at == Some(place) {
            text.extend(damaged(line, random));
        } else {
            text.extend_from_slice(line.as_bytes());
            text.push(b'\n');
        }
    }
    match random.below(80) {
        0 => drop(text.pop()),
        1 => text.extend_from_slice(b"edit=257"),
        2 => text.push(b'\n'),
        // Longer than any text without fault.
        3 => text = text.repeat(1 + 70_000 / text.len().max(1)),
        4 => text.extend(std::iter::repeat_n(b'7', 70_000)),
        _ => {}
    }
    text
}
