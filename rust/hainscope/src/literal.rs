//! Literals: what a clause says of one variable, as one number.
//! Nothing is judged here: a variable that no table has makes a literal that reading refuses.

/// The literal that is true where a variable is 1: twice the variable. A variable from 32,768 on has
/// no literal; it gives 65,535, which reading refuses with 6, since no table has so many variables.
///
/// ```
/// use hainscope::wants;
///
/// assert_eq!(wants(3), 6);
/// assert_eq!(wants(32_767), 65_534);
/// assert_eq!(wants(32_768), 65_535);
/// ```
pub fn wants(variable: u16) -> u16 {
    variable.saturating_mul(2)
}

/// The literal that is true where a variable is 0: twice the variable, plus 1. A variable from 32,768
/// on has no literal; it gives 65,535, which reading refuses with 6.
///
/// ```
/// use hainscope::refuses;
///
/// assert_eq!(refuses(3), 7);
/// assert_eq!(refuses(32_767), 65_535);
/// assert_eq!(refuses(32_768), 65_535);
/// ```
pub fn refuses(variable: u16) -> u16 {
    variable.saturating_mul(2).saturating_add(1)
}

/// The variable that a literal speaks of, and whether it is true where that variable is 1.
///
/// ```
/// use hainscope::{refuses, variable_of, wants};
///
/// assert_eq!(variable_of(wants(3)), (3, true));
/// assert_eq!(variable_of(refuses(3)), (3, false));
/// ```
pub fn variable_of(literal: u16) -> (u16, bool) {
    (literal / 2, literal % 2 == 0)
}
