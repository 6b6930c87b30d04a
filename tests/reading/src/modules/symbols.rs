//! "Built-in symbols": what the two modules offer, the OIDs and the classes.

use super::grammar::MACROS;

pub const SMI: &[u8] = b"SNMPv2-SMI";
pub const TC: &[u8] = b"SNMPv2-TC";

/// Does the module named offer this symbol? Any other module offers nothing.
pub fn is_offered(module: &[u8], symbol: &[u8]) -> bool {
    if module == SMI {
        MACROS[..4].contains(&symbol)
            || smi_type(symbol).is_some()
            || symbol != b"iso" && built_in_oid(symbol).is_some()
    } else if module == TC {
        symbol == MACROS[4] || tc_type(symbol).is_some()
    } else {
        false
    }
}

/// The OID of a built-in name. `iso` needs no import.
pub fn built_in_oid(name: &[u8]) -> Option<&'static [u32]> {
    Some(match name {
        b"iso" => &[1],
        b"org" => &[1, 3],
        b"dod" => &[1, 3, 6],
        b"internet" => &[1, 3, 6, 1],
        b"directory" => &[1, 3, 6, 1, 1],
        b"mgmt" => &[1, 3, 6, 1, 2],
        b"mib-2" => &[1, 3, 6, 1, 2, 1],
        b"transmission" => &[1, 3, 6, 1, 2, 1, 10],
        b"experimental" => &[1, 3, 6, 1, 3],
        b"private" => &[1, 3, 6, 1, 4],
        b"enterprises" => &[1, 3, 6, 1, 4, 1],
        b"security" => &[1, 3, 6, 1, 5],
        b"snmpV2" => &[1, 3, 6, 1, 6],
        b"snmpDomains" => &[1, 3, 6, 1, 6, 1],
        b"snmpProxys" => &[1, 3, 6, 1, 6, 2],
        b"snmpModules" => &[1, 3, 6, 1, 6, 3],
        b"zeroDotZero" => &[0, 0],
        _ => return None,
    })
}

/// The class of one of SMI's eight types.
pub fn smi_type(name: &[u8]) -> Option<u32> {
    Some(match name {
        b"Integer32" => 1,
        b"IpAddress" => 6,
        b"Counter32" => 7,
        b"Gauge32" => 8,
        b"Unsigned32" => 9,
        b"TimeTicks" => 10,
        b"Opaque" => 11,
        b"Counter64" => 12,
        _ => return None,
    })
}

/// The class of a type of SNMPv2-TC.
pub fn tc_type(name: &[u8]) -> Option<u32> {
    Some(match name {
        b"DisplayString" | b"PhysAddress" | b"MacAddress" | b"DateAndTime" | b"TAddress" => 3,
        b"TestAndIncr" | b"TimeInterval" => 1,
        b"TruthValue" | b"RowStatus" | b"StorageType" => 2,
        b"AutonomousType" | b"InstancePointer" | b"VariablePointer" | b"RowPointer"
        | b"TDomain" => 4,
        b"TimeStamp" => 10,
        _ => return None,
    })
}
