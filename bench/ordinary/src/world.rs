//! The world text: its tables, where each name of another table is replaced by an index.

use crate::sqlite::Result;
use serde::Deserialize;
use std::collections::{BTreeMap, HashMap};

/// The tables as they are in the text.
#[derive(Deserialize)]
struct Text {
    rules: Rules,
    terrain: Vec<TerrainText>,
    #[serde(default)]
    item: Vec<ItemText>,
    #[serde(default)]
    skill: Vec<Skill>,
    #[serde(default)]
    kind: Vec<KindText>,
    region: Vec<RegionText>,
}

#[derive(Deserialize)]
pub struct Rules {
    pub maintenance: u32,
    pub tax_per_man: u32,
    pub recruit_price: u32,
    pub recruit_fraction: u32,
    pub growth: u32,
    pub income: u32,
    pub start_money: u32,
    pub man_weight: u32,
    pub man_carry: u32,
    pub observation: Option<String>,
    pub stealth: Option<String>,
    pub sailing: Option<String>,
}

#[derive(Deserialize)]
struct TerrainText {
    name: String,
    land: bool,
    wage: u32,
    places: u32,
    money_limit: u32,
    peasant_limit: u32,
    #[serde(default)]
    output: HashMap<String, u32>,
}

#[derive(Deserialize)]
struct ItemText {
    name: String,
    weight: u32,
    carry: u32,
    skill: Option<String>,
    #[serde(default = "one")]
    level: u32,
    raw: Option<String>,
    #[serde(default = "one")]
    raw_count: u32,
}

#[derive(Deserialize)]
pub struct Skill {
    pub name: String,
    pub fee: u32,
}

#[derive(Deserialize)]
struct KindText {
    name: String,
    ship: bool,
    material: String,
    size: u32,
    skill: String,
    level: u32,
    #[serde(default)]
    capacity: u32,
    #[serde(default)]
    crew: u32,
    helps: Option<String>,
}

#[derive(Deserialize)]
struct RegionText {
    number: u32,
    name: String,
    terrain: String,
    peasants: u32,
    money: u32,
    north: Option<u32>,
    south: Option<u32>,
    east: Option<u32>,
    west: Option<u32>,
    #[serde(default)]
    market: Vec<MarketText>,
}

#[derive(Deserialize)]
struct MarketText {
    item: String,
    price: u32,
    pays: u32,
    limit: u32,
    restock: u32,
}

fn one() -> u32 {
    1
}

/// The world. Terrains, items, skills and kinds have the order of the text.
pub struct World {
    pub rules: Rules,
    pub observation: Option<usize>,
    pub stealth: Option<usize>,
    pub sailing: Option<usize>,
    pub terrains: Vec<Terrain>,
    pub items: Vec<Item>,
    pub skills: Vec<Skill>,
    pub kinds: Vec<Kind>,
    pub regions: BTreeMap<u32, Region>,
}

pub struct Terrain {
    pub name: String,
    pub land: bool,
    pub wage: u32,
    pub places: u32,
    pub money_limit: u32,
    pub peasant_limit: u32,
    pub output: BTreeMap<usize, u32>,
}

pub struct Item {
    pub name: String,
    pub weight: u32,
    pub carry: u32,
    pub skill: Option<usize>,
    pub level: u32,
    pub raw: Option<usize>,
    pub raw_count: u32,
}

pub struct Kind {
    pub name: String,
    pub ship: bool,
    pub material: usize,
    pub size: u32,
    pub skill: usize,
    pub level: u32,
    pub capacity: u32,
    pub crew: u32,
    pub helps: Option<usize>,
}

pub struct Region {
    pub name: String,
    pub terrain: usize,
    pub peasants: u32,
    pub money: u32,
    /// North, south, east and west.
    pub exits: [Option<u32>; 4],
    pub markets: BTreeMap<usize, Market>,
}

pub struct Market {
    pub price: u32,
    pub pays: u32,
    pub limit: u32,
    pub restock: u32,
}

/// The index of each name, which is kept in lower case.
struct Names(HashMap<String, usize>);

impl Names {
    fn of<'a>(names: impl Iterator<Item = &'a String>) -> Names {
        Names(
            names
                .enumerate()
                .map(|(at, name)| (name.to_ascii_lowercase(), at))
                .collect(),
        )
    }

    fn find(&self, name: &str) -> Result<usize> {
        let at = self.0.get(&name.to_ascii_lowercase()).copied();
        at.ok_or_else(|| format!("the world has no {name}").into())
    }

    fn find_if_any(&self, name: &Option<String>) -> Result<Option<usize>> {
        name.as_ref().map(|name| self.find(name)).transpose()
    }
}

/// Reads a world text, or says what is wrong with it.
pub fn read(text: &str) -> Result<World> {
    let text: Text = toml::from_str(text.trim_start_matches('\u{feff}'))?;
    let terrain_names = Names::of(text.terrain.iter().map(|terrain| &terrain.name));
    let item_names = Names::of(text.item.iter().map(|item| &item.name));
    let skill_names = Names::of(text.skill.iter().map(|skill| &skill.name));
    let terrains = text
        .terrain
        .into_iter()
        .map(|terrain| read_terrain(terrain, &item_names));
    let items = text
        .item
        .into_iter()
        .map(|item| read_item(item, &item_names, &skill_names));
    let kinds = text
        .kind
        .into_iter()
        .map(|kind| read_kind(kind, &item_names, &skill_names));
    let regions = text
        .region
        .into_iter()
        .map(|region| read_region(region, &terrain_names, &item_names));
    let world = World {
        observation: skill_names.find_if_any(&text.rules.observation)?,
        stealth: skill_names.find_if_any(&text.rules.stealth)?,
        sailing: skill_names.find_if_any(&text.rules.sailing)?,
        rules: text.rules,
        terrains: terrains.collect::<Result<_>>()?,
        items: items.collect::<Result<_>>()?,
        skills: text.skill,
        kinds: kinds.collect::<Result<_>>()?,
        regions: regions.collect::<Result<_>>()?,
    };
    check_exits(&world.regions)?;
    Ok(world)
}

fn read_terrain(text: TerrainText, items: &Names) -> Result<Terrain> {
    let output = text
        .output
        .iter()
        .map(|(item, amount)| Ok((items.find(item)?, *amount)));
    Ok(Terrain {
        output: output.collect::<Result<_>>()?,
        name: text.name,
        land: text.land,
        wage: text.wage,
        places: text.places,
        money_limit: text.money_limit,
        peasant_limit: text.peasant_limit,
    })
}

fn read_item(text: ItemText, items: &Names, skills: &Names) -> Result<Item> {
    Ok(Item {
        skill: skills.find_if_any(&text.skill)?,
        raw: items.find_if_any(&text.raw)?,
        name: text.name,
        weight: text.weight,
        carry: text.carry,
        level: text.level,
        raw_count: text.raw_count,
    })
}

fn read_kind(text: KindText, items: &Names, skills: &Names) -> Result<Kind> {
    Ok(Kind {
        material: items.find(&text.material)?,
        skill: skills.find(&text.skill)?,
        helps: skills.find_if_any(&text.helps)?,
        name: text.name,
        ship: text.ship,
        size: text.size,
        level: text.level,
        capacity: text.capacity,
        crew: text.crew,
    })
}

fn read_region(text: RegionText, terrains: &Names, items: &Names) -> Result<(u32, Region)> {
    let markets = text.market.into_iter().map(|market| {
        let MarketText {
            item,
            price,
            pays,
            limit,
            restock,
        } = market;
        Ok((
            items.find(&item)?,
            Market {
                price,
                pays,
                limit,
                restock,
            },
        ))
    });
    let region = Region {
        terrain: terrains.find(&text.terrain)?,
        markets: markets.collect::<Result<_>>()?,
        name: text.name,
        peasants: text.peasants,
        money: text.money,
        exits: [text.north, text.south, text.east, text.west],
    };
    Ok((text.number, region))
}

/// Each exit leads to a region that leads back.
fn check_exits(regions: &BTreeMap<u32, Region>) -> Result<()> {
    const OPPOSITE: [usize; 4] = [1, 0, 3, 2];
    for (number, region) in regions {
        for (side, exit) in region.exits.iter().enumerate() {
            let Some(there) = exit else { continue };
            let back = regions
                .get(there)
                .and_then(|there| there.exits[OPPOSITE[side]]);
            if back != Some(*number) {
                return Err(format!("region {there} doesn't lead back to {number}").into());
            }
        }
    }
    Ok(())
}
