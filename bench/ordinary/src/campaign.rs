//! A campaign: all rows of its file, by their keys.

use crate::sqlite::{Connection, Result, Row};
use crate::world::{self, World};
use std::collections::BTreeMap;

const FORMAT: u32 = 2;

pub struct Campaign {
    pub month: u32,
    pub next_faction: u32,
    pub next_unit: u32,
    pub next_structure: u32,
    pub pass: String,
    pub world: World,
    pub factions: BTreeMap<u32, Faction>,
    pub regions: BTreeMap<u32, Region>,
    pub units: BTreeMap<u32, Unit>,
    pub structures: BTreeMap<u32, Structure>,
    /// The amounts by entry and thing.
    pub books: BTreeMap<(u32, u32), i64>,
}

pub struct Faction {
    pub joined_as: String,
    pub name: String,
    pub pass: String,
    pub gone: bool,
    pub mail: Option<Vec<u8>>,
    pub report: String,
}

pub struct Region {
    pub peasants: u32,
    pub money: u32,
    /// Items with what is in stock of them.
    pub stocks: Vec<(u32, u32)>,
}

pub struct Unit {
    pub faction: u32,
    pub name: String,
    pub region: u32,
    pub structure: Option<u32>,
    pub men: u32,
    pub money: u32,
    pub guard: bool,
    /// Items with amounts, and skills with days.
    pub items: Vec<(u32, u32)>,
    pub skills: Vec<(u32, u32)>,
}

pub struct Structure {
    pub kind: usize,
    pub name: String,
    pub region: u32,
    pub done: u32,
    pub owner: Option<u32>,
}

impl Campaign {
    /// Reads all tables in one transaction.
    pub fn read(file: &Connection) -> Result<Campaign> {
        file.run("BEGIN")?;
        let mut campaign = read_campaign(file)?;
        read_factions(file, &mut campaign)?;
        read_regions(file, &mut campaign)?;
        read_structures(file, &mut campaign)?;
        read_units(file, &mut campaign)?;
        read_books(file, &mut campaign)?;
        file.run("COMMIT")?;
        Ok(campaign)
    }
}

fn read_campaign(file: &Connection) -> Result<Campaign> {
    let mut found = None;
    let sql = "SELECT format, month, next_faction, next_unit, next_structure, pass, world \
               FROM campaign";
    file.each_row(sql, |row| {
        if row.number::<u32>(0)? != FORMAT {
            return Err("the file has another format".into());
        }
        found = Some(Campaign {
            month: row.number(1)?,
            next_faction: row.number(2)?,
            next_unit: row.number(3)?,
            next_structure: row.number(4)?,
            pass: row.text(5)?,
            world: world::read(&row.text(6)?)?,
            factions: BTreeMap::new(),
            regions: BTreeMap::new(),
            units: BTreeMap::new(),
            structures: BTreeMap::new(),
            books: BTreeMap::new(),
        });
        Ok(())
    })?;
    found.ok_or_else(|| "the file has no campaign".into())
}

fn read_factions(file: &Connection, campaign: &mut Campaign) -> Result<()> {
    let factions = &mut campaign.factions;
    file.each_row(
        "SELECT number, joined_as, name, pass, gone FROM faction",
        |row| {
            let faction = Faction {
                joined_as: row.text(1)?,
                name: row.text(2)?,
                pass: row.text(3)?,
                gone: row.number::<u8>(4)? == 1,
                mail: None,
                report: String::new(),
            };
            factions.insert(row.number(0)?, faction);
            Ok(())
        },
    )?;
    file.each_row("SELECT faction, text FROM mail", |row| {
        referred(factions, row, 0)?.mail = Some(row.bytes(1));
        Ok(())
    })?;
    file.each_row("SELECT faction, text FROM report", |row| {
        referred(factions, row, 0)?.report = row.text(1)?;
        Ok(())
    })
}

fn read_regions(file: &Connection, campaign: &mut Campaign) -> Result<()> {
    let (regions, world) = (&mut campaign.regions, &mut campaign.world);
    file.each_row("SELECT number, peasants, money FROM region", |row| {
        referred(&mut world.regions, row, 0)?;
        let region = Region {
            peasants: row.number(1)?,
            money: row.number(2)?,
            stocks: vec![],
        };
        regions.insert(row.number(0)?, region);
        Ok(())
    })?;
    file.each_row("SELECT region, item, stock FROM market", |row| {
        referred(regions, row, 0)?
            .stocks
            .push((row.number(1)?, row.number(2)?));
        Ok(())
    })
}

fn read_structures(file: &Connection, campaign: &mut Campaign) -> Result<()> {
    let (structures, regions) = (&mut campaign.structures, &mut campaign.regions);
    file.each_row(
        "SELECT number, kind, name, region, done, owner FROM structure",
        |row| {
            referred(regions, row, 3)?;
            let structure = Structure {
                kind: row.number(1)?,
                name: row.text(2)?,
                region: row.number(3)?,
                done: row.number(4)?,
                owner: number_if_any(row, 5)?,
            };
            structures.insert(row.number(0)?, structure);
            Ok(())
        },
    )
}

fn read_units(file: &Connection, campaign: &mut Campaign) -> Result<()> {
    let (units, factions, regions) = (
        &mut campaign.units,
        &mut campaign.factions,
        &mut campaign.regions,
    );
    let sql = "SELECT number, faction, name, region, structure, men, money, guard FROM unit";
    file.each_row(sql, |row| {
        referred(factions, row, 1)?;
        referred(regions, row, 3)?;
        let unit = Unit {
            faction: row.number(1)?,
            name: row.text(2)?,
            region: row.number(3)?,
            structure: number_if_any(row, 4)?,
            men: row.number(5)?,
            money: row.number(6)?,
            guard: row.number::<u8>(7)? == 1,
            items: vec![],
            skills: vec![],
        };
        units.insert(row.number(0)?, unit);
        Ok(())
    })?;
    file.each_row("SELECT unit, sort, thing, amount FROM has", |row| {
        let unit = referred(units, row, 0)?;
        let things = if row.number::<u8>(1)? == 0 {
            &mut unit.items
        } else {
            &mut unit.skills
        };
        things.push((row.number(2)?, row.number(3)?));
        Ok(())
    })
}

fn read_books(file: &Connection, campaign: &mut Campaign) -> Result<()> {
    file.each_row("SELECT entry, thing, amount FROM books", |row| {
        campaign
            .books
            .insert((row.number(0)?, row.number(1)?), row.number(2)?);
        Ok(())
    })
}

/// What a column of a row refers to.
fn referred<'a, T>(things: &'a mut BTreeMap<u32, T>, row: &Row, column: i32) -> Result<&'a mut T> {
    let number: u32 = row.number(column)?;
    things
        .get_mut(&number)
        .ok_or_else(|| format!("a row refers to {number}").into())
}

/// A number, or None where the column has 0.
fn number_if_any(row: &Row, column: i32) -> Result<Option<u32>> {
    Ok(Some(row.number(column)?).filter(|number| *number != 0))
}
