//! The fields of a night sheet in their order, before they are numbers in groups of seven bits.
//! They can hold nonsense.

use crate::table::{Instance, Table};

/// The form of every sheet.
pub const FORM: u64 = 1;

#[derive(Clone, Copy, Debug, PartialEq, Eq)]
pub enum Field {
    Form,
    Last,
    Count,
    Procedure,
    Index,
    Service,
    NumberForm,
    Type,
    DigitCount,
    Digit,
    SubaddressLength,
    Octet,
}

#[derive(Clone, Debug, PartialEq, Eq)]
pub struct SheetFields {
    pub form: u64,
    pub last: u64,
    pub count: u64,
    pub instances: Vec<InstanceFields>,
}

#[derive(Clone, Debug, PartialEq, Eq)]
pub struct InstanceFields {
    pub procedure: u64,
    pub index: u64,
    pub service: u64,
    pub form: u64,
    pub number_type: u64,
    pub digit_count: u64,
    pub digits: Vec<u64>,
    pub subaddress_length: u64,
    pub octets: Vec<u64>,
}

impl SheetFields {
    /// The instances ascending by their first three fields.
    pub fn of(table: &Table) -> Self {
        let instances = table.sorted().instances;
        SheetFields {
            form: FORM,
            last: field(table.last),
            count: instances.len() as u64,
            instances: instances.iter().map(InstanceFields::of).collect(),
        }
    }

    pub fn in_order(&self) -> Vec<(Field, u64)> {
        let mut fields = vec![
            (Field::Form, self.form),
            (Field::Last, self.last),
            (Field::Count, self.count),
        ];
        for instance in &self.instances {
            instance.append_to(&mut fields);
        }
        fields
    }
}

impl InstanceFields {
    fn of(instance: &Instance) -> Self {
        let number = &instance.address.number;
        // A68: digits are values, not characters.
        let digits = number.digits.iter();
        let digits: Vec<u64> = digits
            .map(|digit| u64::from(digit.wrapping_sub(b'0')))
            .collect();
        let octets = instance.address.subaddress.octets().iter();
        let octets: Vec<u64> = octets.map(|octet| u64::from(*octet)).collect();
        InstanceFields {
            procedure: field(instance.procedure),
            index: field(instance.number),
            service: field(instance.service),
            form: field(number.form),
            number_type: field(number.number_type),
            digit_count: digits.len() as u64,
            digits,
            subaddress_length: octets.len() as u64,
            octets,
        }
    }

    fn append_to(&self, fields: &mut Vec<(Field, u64)>) {
        fields.extend([
            (Field::Procedure, self.procedure),
            (Field::Index, self.index),
            (Field::Service, self.service),
            (Field::NumberForm, self.form),
            (Field::Type, self.number_type),
            (Field::DigitCount, self.digit_count),
        ]);
        fields.extend(self.digits.iter().map(|digit| (Field::Digit, *digit)));
        fields.push((Field::SubaddressLength, self.subaddress_length));
        fields.extend(self.octets.iter().map(|octet| (Field::Octet, *octet)));
    }

    /// What a sheet's instances ascend by.
    pub fn key(&self) -> (u64, u64, u64) {
        (self.procedure, self.index, self.service)
    }
}

/// Only good tables are written, so no field is negative.
fn field(value: i32) -> u64 {
    u64::try_from(value).unwrap_or(u64::MAX)
}
