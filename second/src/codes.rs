//! The code tables: procedures, basic services, operations, errors, number types and reasons
//! (document 01 "Codes"; 000, clause 7.1; 001, 2.5.2.5.1.2).

/// Basic services: sixteen codes besides 0, strictly ascending.
pub const SERVICES: [i32; 16] = [1, 2, 3, 4, 5, 32, 33, 34, 35, 36, 37, 38, 39, 40, 41, 42];

/// The service code that stands for every subscribed service.
pub const ALL_SERVICES: i32 = 0;

pub const CFU: i32 = 0;
pub const CFB: i32 = 1;
pub const CFNR: i32 = 2;
pub const PROCEDURES: [i32; 3] = [CFU, CFB, CFNR];

/// The reasons of a diversion, by procedure.
pub const REASONS: [i32; 3] = [1, 2, 3];

pub const ACTIVATION: i32 = 7;
pub const DEACTIVATION: i32 = 8;
pub const INTERROGATION: i32 = 11;
pub const OPERATIONS: [i32; 3] = [ACTIVATION, DEACTIVATION, INTERROGATION];

/// Types of a public number; 5 is no type.
pub const PUBLIC_TYPES: [i32; 6] = [0, 1, 2, 3, 4, 6];

/// The public type whose forwarded-to numbers end at 15 digits (error 12).
pub const INTERNATIONAL: i32 = 1;

pub const NOT_SUBSCRIBED: i32 = 0;
pub const NOT_AVAILABLE: i32 = 3;
pub const INVALID_SERVED_NUMBER: i32 = 6;
pub const SERVICE_NOT_PROVIDED: i32 = 8;
pub const RESOURCE_UNAVAILABLE: i32 = 11;
pub const INVALID_DIVERTED_TO_NUMBER: i32 = 12;
pub const SPECIAL_SERVICE_NUMBER: i32 = 14;
pub const DIVERSION_TO_SERVED_NUMBER: i32 = 15;
pub const NOT_ACTIVATED: i32 = 46;

pub const GREATEST_IDENTIFIER: i32 = 32_767;

/// One of the sixteen; 0 is not among them.
pub fn is_service(code: i32) -> bool {
    SERVICES.contains(&code)
}

/// What a request may name: one of the sixteen, or 0 for all.
pub fn is_service_or_all(code: i32) -> bool {
    code == ALL_SERVICES || is_service(code)
}

pub fn is_procedure(code: i32) -> bool {
    PROCEDURES.contains(&code)
}

/// A "yes or no" of a record: 0 or 1, anything else is no answer.
pub fn is_flag(value: i32) -> bool {
    value == 0 || value == 1
}

/// The place of a procedure, flag or number index in an array, if it has one.
pub fn place(code: i32) -> Option<usize> {
    usize::try_from(code).ok()
}
