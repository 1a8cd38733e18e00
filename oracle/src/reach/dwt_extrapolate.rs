// Opens private functions of dwt_extrapolate.rs.

pub fn t(value: i32) -> i16 {
    super::t(value)
}
