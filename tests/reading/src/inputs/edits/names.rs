//! Edits aimed at refusals 9 and 10: names twice, symbols not offered.

use super::*;

// 9: names twice.

pub fn name_again(rng: &mut Rng, model: &mut Model) -> bool {
    done(|| {
        let first = some(rng, model, |_| true)?;
        let upper = is_upper(&model.definitions[first].name);
        let second = some(rng, model, |d| is_upper(&d.name) == upper)?;
        model.definitions[first].name = model.definitions[second].name.clone();
        (first != second).then_some(())
    })
}

pub fn iso_defined(rng: &mut Rng, model: &mut Model) -> bool {
    if rng.chance(50) {
        add_symbol(rng, model, b"iso", None);
        return true;
    }
    done(|| {
        let i = some(rng, model, Definition::has_oid)?;
        model.definitions[i].name = b"iso".to_vec();
        Some(())
    })
}

pub fn symbol_again(rng: &mut Rng, model: &mut Model) -> bool {
    done(|| {
        let symbol = some_symbol(rng, model)?;
        add_symbol(rng, model, &symbol, None);
        Some(())
    })
}

pub fn imported_and_defined(rng: &mut Rng, model: &mut Model) -> bool {
    done(|| {
        let symbol = some_symbol(rng, model)?;
        let upper = is_upper(&symbol);
        let i = some(rng, model, |d| is_upper(&d.name) == upper)?;
        model.definitions[i].name = symbol;
        Some(())
    })
}

pub fn defined_and_imported(rng: &mut Rng, model: &mut Model) -> bool {
    done(|| {
        let i = some(rng, model, |_| true)?;
        let name = model.definitions[i].name.clone();
        add_symbol(rng, model, &name, None);
        Some(())
    })
}

/// The module's own name for a type: no second definition.
pub fn module_name_defined(rng: &mut Rng, model: &mut Model) -> bool {
    done(|| {
        let i = some(rng, model, |d| !d.has_oid())?;
        model.name = model.definitions[i].name.clone();
        Some(())
    })
}

// 10: symbols not offered.

pub fn stranger_imported(rng: &mut Rng, model: &mut Model) -> bool {
    let stranger = rng.word(&[
        "ifIndex",
        "sysUpTime",
        "ObjectName",
        "ExtUTCTime",
        "Integer64",
        "MacAddresses",
        "mib-3",
        "ccitt",
        "Counter",
        "displayString",
        "TimeTick",
        "MODULE-COMPLIANCE",
        "Org",
        "X",
        "x",
    ]);
    let module = *rng.one(&[symbols::SMI, symbols::TC]);
    add_symbol(rng, model, stranger, Some(module));
    true
}

pub fn module_unknown(rng: &mut Rng, model: &mut Model) -> bool {
    if model.groups.is_empty() {
        return false;
    }
    let group = rng.below(model.groups.len());
    let module = rng.word(&[
        "SNMPv2-CONF",
        "SNMPv2-MIB",
        "SNMPv2-smi",
        "SNMPv2",
        "T",
        "SNMPv2-SMI2",
        "SNMPv2-TC1",
        "RFC1155-SMI",
    ]);
    model.groups[group].module = module.to_vec();
    true
}

pub fn modules_exchanged(rng: &mut Rng, model: &mut Model) -> bool {
    if model.groups.is_empty() {
        return false;
    }
    let i = rng.below(model.groups.len());
    let group = &mut model.groups[i];
    let other = if group.module == symbols::SMI {
        symbols::TC
    } else {
        symbols::SMI
    };
    group.module = other.to_vec();
    true
}

pub fn symbol_misplaced(rng: &mut Rng, model: &mut Model) -> bool {
    let (symbol, module) = match rng.below(5) {
        0 => (*rng.one(&OID_SYMBOLS), symbols::TC),
        1 => (*rng.one(&SMI_TYPES), symbols::TC),
        2 => (*rng.one(&SMI_MACROS), symbols::TC),
        3 => (*rng.one(&TC_TYPES), symbols::SMI),
        _ => (TC_MACRO, symbols::SMI),
    };
    for group in &mut model.groups {
        group.symbols.retain(|other| other != symbol.as_bytes());
    }
    model.groups.retain(|group| !group.symbols.is_empty());
    add_symbol(rng, model, symbol.as_bytes(), Some(module));
    true
}
