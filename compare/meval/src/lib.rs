// Stands in for the crate meval: every evaluation errs. Formulas are outside the domain of the comparison.
pub struct Context;

pub struct Error;

impl Context {
    pub fn new() -> Context {
        Context
    }

    pub fn var(&mut self, _name: &str, _value: f64) {}
}

pub fn eval_str_with_context(_formula: &str, _context: Context) -> Result<f64, Error> {
    Err(Error)
}
