//! What the names mean while a well-typed tree is written.

use crate::kinds::NAMES;
use crate::tree::{Code, Name};

#[derive(Clone, Debug)]
pub enum Meaning {
    Code(Code),
    /// The integer cell that counts a loop down. It is read and nothing else, so
    /// that the loop ends.
    Counter,
    /// A function with Formals of these codes.
    Function(Vec<Code>),
}

#[derive(Clone)]
pub struct Scope {
    meanings: Vec<Option<Meaning>>,
    /// The names that the first declaration of a DSeq gives to the second, one bit
    /// a name: they are used more often than others.
    earlier: u64,
}

impl Scope {
    /// Names 0 to r − 1 are registers, code 2.
    pub fn of_registers(registers: u32) -> Scope {
        let register = |name| if name < registers { Some(Meaning::Code(2)) } else { None };
        Scope { meanings: (0..NAMES).map(register).collect(), earlier: 0 }
    }

    /// The scope inside, where these names hide others.
    pub fn with(&self, declared: &[(Name, Meaning)]) -> Scope {
        let mut scope = self.clone();
        for (name, meaning) in declared {
            scope.meanings[*name as usize] = Some(meaning.clone());
            scope.earlier &= !(1 << name);
        }
        scope
    }

    /// The scope inside, where this name hides another and is used by no one.
    pub fn without(&self, name: Name) -> Scope {
        let mut scope = self.clone();
        scope.meanings[name as usize] = None;
        scope.earlier &= !(1 << name);
        scope
    }

    /// The scope of a DSeq's second declaration, which sees what the first one
    /// declares.
    pub fn with_earlier(&self, declared: &[(Name, Meaning)]) -> Scope {
        let mut scope = self.with(declared);
        for (name, _) in declared {
            scope.earlier |= 1 << name;
        }
        scope
    }

    /// Whether the first declaration of a DSeq gives this name to the second.
    pub fn is_earlier(&self, name: Name) -> bool {
        self.earlier & (1 << name) != 0
    }

    fn all(&self) -> impl Iterator<Item = (Name, &Meaning)> {
        let numbered = self.meanings.iter().enumerate();
        numbered.filter_map(|(name, meaning)| Some((name as Name, meaning.as_ref()?)))
    }

    /// The names with a code, and the code.
    pub fn codes(&self) -> Vec<(Name, Code)> {
        let code = |(name, meaning): (Name, &Meaning)| match meaning {
            Meaning::Code(code) => Some((name, *code)),
            _ => None,
        };
        self.all().filter_map(code).collect()
    }

    /// The names an Assign may set, and the code of the value it takes.
    pub fn assignable(&self) -> Vec<(Name, Code)> {
        let cell =
            |(name, code)| if code == 2 || code == 3 { Some((name, code - 2)) } else { None };
        self.codes().into_iter().filter_map(cell).collect()
    }

    pub fn counters(&self) -> Vec<Name> {
        let counter = |(name, meaning): (Name, &Meaning)| match meaning {
            Meaning::Counter => Some(name),
            _ => None,
        };
        self.all().filter_map(counter).collect()
    }

    /// The functions for all of whose Formals an actual can be written.
    pub fn callable(&self) -> Vec<(Name, Vec<Code>)> {
        let function = |(name, meaning): (Name, &Meaning)| match meaning {
            Meaning::Function(formals) if formals.iter().all(|code| self.can_make(*code)) => {
                Some((name, formals.clone()))
            }
            _ => None,
        };
        self.all().filter_map(function).collect()
    }

    /// Whether some expression has this code: any may have 0 or 1; a location
    /// comes from a name alone (DeRef, Id or ValRef).
    pub fn can_make(&self, code: Code) -> bool {
        code < 2
            || self
                .codes()
                .iter()
                .any(|(_, named)| *named == code || *named == code + 2 || *named == code + 4)
    }

    pub fn visible(&self) -> Vec<Name> {
        self.all().map(|(name, _)| name).collect()
    }
}
