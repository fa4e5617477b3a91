//! Types. Function types are kept once each, so types are the same exactly when they are equal.

#[derive(Clone, Copy, Debug, PartialEq, Eq)]
pub enum Type {
    Int,
    Bool,
    Sym,
    Unit,
    /// A datatype, by its number in text order.
    Data(u16),
    /// A function type, by its number in [`Types`].
    Function(u16),
}

#[derive(PartialEq, Eq)]
struct Signature {
    parameters: Vec<Type>,
    result: Type,
}

#[derive(Default)]
pub struct Types(Vec<Signature>);

impl Types {
    pub fn function(&mut self, parameters: &[Type], result: Type) -> Type {
        let same = |s: &Signature| s.result == result && s.parameters == parameters;
        let known = self.0.iter().position(same);
        let number = known.unwrap_or_else(|| {
            self.0.push(Signature { parameters: parameters.to_vec(), result });
            self.0.len() - 1
        });
        Type::Function(number as u16)
    }

    /// The parameters and the result of a function type.
    pub fn parts(&self, ty: Type) -> Option<(&[Type], Type)> {
        match ty {
            Type::Function(number) => {
                let signature = &self.0[number as usize];
                Some((&signature.parameters, signature.result))
            }
            _ => None,
        }
    }
}
