//! The private passes made callable, in the order of `analyze`.

use super::*;

/// Runs passes 1 to 9: the file in listed order, or the first pass that finds faults.
pub fn check(file: &File) -> Result<File, (u16, Diagnostics)> {
    let scope = Scope::new(file).map_err(|found| (1, found))?;
    let listed = check_decl_identifiers(file, &scope).map_err(|found| (2, found))?;
    check_listed(&listed)?;
    Ok(listed)
}

/// Runs pass 2 on a file with unique names: the file in listed order, or the faults.
pub fn order(file: &File) -> Result<File, Diagnostics> {
    let scope = Scope::new(file)?;
    check_decl_identifiers(file, &scope)
}

/// Runs passes 3 to 9 on the listed file.
fn check_listed(listed: &File) -> Result<(), (u16, Diagnostics)> {
    let scope = Scope::new(listed).expect("pass 1 found the names unique");
    check_field_identifiers(listed).map_err(|found| (3, found))?;
    check_enum_declarations(listed).map_err(|found| (4, found))?;
    check_size_fields(listed).map_err(|found| (5, found))?;
    check_fixed_fields(listed, &scope).map_err(|found| (6, found))?;
    check_payload_fields(listed).map_err(|found| (7, found))?;
    check_array_fields(listed).map_err(|found| (8, found))?;
    check_padding_fields(listed).map_err(|found| (9, found))
}

/// Runs `inline_groups`, which raises no diagnostic. It panics on what document 01 calls Unfit.
pub fn inline(listed: &File) -> File {
    inline_groups(listed).expect("inline_groups raises no diagnostic")
}

/// Runs `desugar_flags`. It panics on what document 01 calls Loose.
pub fn desugar(inlined: &mut File) {
    desugar_flags(inlined)
}

/// The bit width of a value, as the passes compute it.
pub fn width_of(value: u64) -> usize {
    bit_width(value as usize)
}

/// The greatest value of a width, as the passes compute it.
pub fn greatest_of(width: usize) -> u64 {
    scalar_max(width) as u64
}
