//! Prints a class as it is declared in C++, after the types that it is made of.
//!
//!     declarations FILE CLASS
//!
//! A program as a user of the crate `pdb` writes it: with that crate, the first line alone is another one.
use pdb_container::pdb;

use std::collections::{HashMap, HashSet};
use std::error::Error;
use std::fmt::Write;

use pdb::{FallibleIterator, PrimitiveKind, TypeData, TypeFinder, TypeIndex};

type Result<T> = std::result::Result<T, Box<dyn Error>>;

/// The types of a file, and where the definition of each class, union and enumeration is, by its unique name, or else by
/// its name.
struct Types<'t> {
    finder: TypeFinder<'t>,
    definitions: HashMap<String, TypeIndex>,
}

/// What tells a class from others of its name, and whether it is only declared.
fn identity(data: &TypeData<'_>) -> Option<(String, bool)> {
    let (name, unique_name, properties) = match data {
        TypeData::Class(it) => (it.name, it.unique_name, it.properties),
        TypeData::Union(it) => (it.name, it.unique_name, it.properties),
        TypeData::Enumeration(it) => (it.name, it.unique_name, it.properties),
        _ => return None,
    };
    Some((unique_name.unwrap_or(name).to_string().into_owned(), properties.forward_reference()))
}

/// Puts what is declared behind the words that stand before it.
fn joined(words: &str, declarator: &str) -> String {
    let space = if declarator.is_empty() || declarator.starts_with('[') || words.is_empty() { "" } else { " " };
    format!("{words}{space}{declarator}")
}

fn primitive(kind: PrimitiveKind) -> &'static str {
    match kind {
        PrimitiveKind::Void => "void",
        PrimitiveKind::Bool8 => "bool",
        PrimitiveKind::Char | PrimitiveKind::I8 => "signed char",
        PrimitiveKind::UChar | PrimitiveKind::U8 => "unsigned char",
        PrimitiveKind::RChar => "char",
        PrimitiveKind::WChar => "wchar_t",
        PrimitiveKind::RChar16 => "char16_t",
        PrimitiveKind::RChar32 => "char32_t",
        PrimitiveKind::Short | PrimitiveKind::I16 => "short",
        PrimitiveKind::UShort | PrimitiveKind::U16 => "unsigned short",
        PrimitiveKind::I32 => "int",
        PrimitiveKind::U32 => "unsigned",
        PrimitiveKind::Long => "long",
        PrimitiveKind::ULong => "unsigned long",
        PrimitiveKind::Quad | PrimitiveKind::I64 => "long long",
        PrimitiveKind::UQuad | PrimitiveKind::U64 => "unsigned long long",
        PrimitiveKind::F32 => "float",
        PrimitiveKind::F64 => "double",
        _ => "/* another type */",
    }
}

impl<'t> Types<'t> {
    fn read(information: &'t pdb::TypeInformation<'_>) -> pdb::Result<Types<'t>> {
        let mut finder = information.finder();
        let mut definitions = HashMap::new();
        let mut types = information.iter();
        while let Some(item) = types.next()? {
            finder.update(&types);
            match item.parse() {
                Ok(data) => {
                    if let Some((name, false)) = identity(&data) {
                        definitions.entry(name).or_insert(item.index());
                    }
                }
                Err(pdb::Error::UnimplementedTypeKind(_)) => {}
                Err(error) => return Err(error),
            }
        }
        Ok(Types { finder, definitions })
    }

    fn get(&self, index: TypeIndex) -> pdb::Result<TypeData<'t>> {
        self.finder.find(index)?.parse()
    }

    /// The type of an index, or its definition if it is only declared.
    fn defined(&self, index: TypeIndex) -> pdb::Result<(TypeIndex, TypeData<'t>)> {
        let data = self.get(index)?;
        match identity(&data).filter(|(_, is_declared)| *is_declared).and_then(|(name, _)| self.definitions.get(&name))
        {
            Some(&definition) => Ok((definition, self.get(definition)?)),
            None => Ok((index, data)),
        }
    }

    /// The fields of a list, and of those in which it continues.
    fn fields(&self, list: TypeIndex) -> pdb::Result<Vec<TypeData<'t>>> {
        let mut found = Vec::new();
        let mut next = Some(list);
        while let Some(TypeData::FieldList(list)) = next.map(|list| self.get(list)).transpose()? {
            found.extend(list.fields);
            next = list.continuation;
        }
        Ok(found)
    }

    fn size(&self, index: TypeIndex) -> pdb::Result<u64> {
        Ok(match self.defined(index)?.1 {
            TypeData::Primitive(it) => match (it.indirection, it.kind) {
                (Some(pdb::Indirection::Near64), _) => 8,
                (Some(_), _) => 4,
                (None, PrimitiveKind::Char | PrimitiveKind::UChar | PrimitiveKind::RChar | PrimitiveKind::Bool8) => 1,
                (None, PrimitiveKind::Short | PrimitiveKind::UShort | PrimitiveKind::WChar) => 2,
                (None, PrimitiveKind::Quad | PrimitiveKind::UQuad | PrimitiveKind::F64) => 8,
                (None, _) => 4,
            },
            TypeData::Class(it) => it.size,
            TypeData::Union(it) => it.size,
            TypeData::Enumeration(it) => self.size(it.underlying_type)?,
            TypeData::Modifier(it) => self.size(it.underlying_type)?,
            TypeData::Bitfield(it) => self.size(it.underlying_type)?,
            TypeData::Pointer(it) => it.attributes.size().into(),
            TypeData::Array(it) => it.dimensions.last().copied().unwrap_or_default().into(),
            _ => 0,
        })
    }

    /// The declaration of something of a type, or the type alone if nothing is declared.
    fn declare(&self, index: TypeIndex, declarator: &str) -> Result<String> {
        Ok(match self.get(index)? {
            TypeData::Primitive(it) => {
                let star = if it.indirection.is_some() { "*" } else { "" };
                joined(primitive(it.kind), &format!("{star}{declarator}"))
            }
            data @ (TypeData::Class(_) | TypeData::Union(_) | TypeData::Enumeration(_)) => {
                joined(&data.name().ok_or("a type without a name")?.to_string(), declarator)
            }
            TypeData::Modifier(it) => {
                let words = [(it.constant, "const "), (it.volatile, "volatile "), (it.unaligned, "__unaligned ")];
                let words: String = words.iter().filter(|(is_so, _)| *is_so).map(|(_, word)| *word).collect();
                words + &self.declare(it.underlying_type, declarator)?
            }
            TypeData::Pointer(it) => {
                let class = it.containing_class.map(|class| self.declare(class, "")).transpose()?;
                let class = class.map_or(String::new(), |class| class + "::");
                let sign = match it.attributes.pointer_mode() {
                    pdb::PointerMode::LValueReference => "&",
                    pdb::PointerMode::RValueReference => "&&",
                    _ => "*",
                };
                let inner = match it.attributes.is_const() {
                    true => joined(&format!("{class}{sign}const"), declarator),
                    false => format!("{class}{sign}{declarator}"),
                };
                let is_function_or_array = matches!(
                    self.get(it.underlying_type)?,
                    TypeData::Procedure(_) | TypeData::MemberFunction(_) | TypeData::Array(_)
                );
                let inner = if is_function_or_array { format!("({inner})") } else { inner };
                self.declare(it.underlying_type, &inner)?
            }
            TypeData::Array(it) => {
                let mut size = self.size(it.element_type)?.max(1);
                let mut lengths = String::new();
                for bytes in it.dimensions {
                    lengths = format!("[{}]{lengths}", u64::from(bytes) / size);
                    size = bytes.into();
                }
                self.declare(it.element_type, &format!("{declarator}{lengths}"))?
            }
            TypeData::Bitfield(it) => format!("{} : {}", self.declare(it.underlying_type, declarator)?, it.length),
            TypeData::Procedure(it) => {
                let inner = format!("{declarator}({})", self.arguments(it.argument_list)?);
                match it.return_type {
                    Some(result) => self.declare(result, &inner)?,
                    None => inner,
                }
            }
            TypeData::MemberFunction(it) => {
                let constant = if self.is_constant(&it)? { " const" } else { "" };
                let inner = format!("{declarator}({}){constant}", self.arguments(it.argument_list)?);
                // A constructor returns nothing.
                if it.attributes.is_constructor() { inner } else { self.declare(it.return_type, &inner)? }
            }
            other => return Err(format!("{index} is no type of a variable: {other:?}").into()),
        })
    }

    /// Whether a method leaves its object as it is: `this` then points to what is constant.
    fn is_constant(&self, method: &pdb::MemberFunctionType) -> pdb::Result<bool> {
        let Some(TypeData::Pointer(this)) = method.this_pointer_type.map(|this| self.get(this)).transpose()? else {
            return Ok(false);
        };
        Ok(matches!(self.get(this.underlying_type)?, TypeData::Modifier(it) if it.constant))
    }

    fn arguments(&self, list: TypeIndex) -> Result<String> {
        let TypeData::ArgumentList(list) = self.get(list)? else { return Err("no list of arguments".into()) };
        let texts: Vec<_> = list.arguments.iter().map(|it| self.declare(*it, "")).collect::<Result<_>>()?;
        Ok(texts.join(", "))
    }

    /// The types of which a type has values inside itself, and not only pointers to them.
    fn parts(&self, index: TypeIndex) -> Result<Vec<TypeIndex>> {
        Ok(match self.get(index)? {
            TypeData::Class(it) => {
                let fields = it.fields.map(|list| self.fields(list)).transpose()?;
                fields.unwrap_or_default().iter().filter_map(part).collect()
            }
            TypeData::Union(it) => self.fields(it.fields)?.iter().filter_map(part).collect(),
            TypeData::Array(it) => vec![it.element_type],
            TypeData::Modifier(it) => vec![it.underlying_type],
            _ => Vec::new(),
        })
    }

    /// Writes the declarations of the types of which a type is made, and then its own.
    fn write(&self, index: TypeIndex, written: &mut HashSet<TypeIndex>, out: &mut String) -> Result<()> {
        let (index, data) = self.defined(index)?;
        if !written.insert(index) {
            return Ok(());
        }
        for part in self.parts(index)? {
            self.write(part, written, out)?;
        }
        match data {
            TypeData::Class(it) => {
                let fields = it.fields.map(|list| self.fields(list)).transpose()?.unwrap_or_default();
                let (word, access) = match it.kind {
                    pdb::ClassKind::Class => ("class", 1),
                    pdb::ClassKind::Struct => ("struct", 3),
                    pdb::ClassKind::Interface => ("__interface", 3),
                };
                let bases = self.bases(&fields)?;
                self.write_body(&format!("{word} {}{bases}", it.name), it.size, access, &fields, out)
            }
            TypeData::Union(it) => {
                self.write_body(&format!("union {}", it.name), it.size, 3, &self.fields(it.fields)?, out)
            }
            TypeData::Enumeration(it) => {
                let under = self.declare(it.underlying_type, "")?;
                let values = self.fields(it.fields)?;
                let values = values.iter().filter_map(|it| match it {
                    TypeData::Enumerate(it) => Some(format!("{} = {}", it.name, it.value)),
                    _ => None,
                });
                Ok(writeln!(out, "enum {} : {under} {{ {} }};", it.name, values.collect::<Vec<_>>().join(", "))?)
            }
            _ => Ok(()),
        }
    }

    fn bases(&self, fields: &[TypeData<'_>]) -> Result<String> {
        let mut bases = Vec::new();
        for field in fields {
            match field {
                TypeData::BaseClass(it) => {
                    bases.push(format!("{} {}", access(it.attributes), self.declare(it.base_class, "")?))
                }
                TypeData::VirtualBaseClass(it) if it.direct => {
                    bases.push(format!("{} virtual {}", access(it.attributes), self.declare(it.base_class, "")?))
                }
                _ => {}
            }
        }
        Ok(if bases.is_empty() { String::new() } else { format!(" : {}", bases.join(", ")) })
    }

    fn write_body(&self, head: &str, size: u64, at_first: u8, fields: &[TypeData<'_>], out: &mut String) -> Result<()> {
        writeln!(out, "{head} {{ // {size} bytes")?;
        let mut current = at_first;
        for field in fields {
            for (attributes, line) in self.lines(field)? {
                if attributes.access() != current {
                    current = attributes.access();
                    writeln!(out, "{}:", access(attributes))?;
                }
                writeln!(out, "    {line}")?;
            }
        }
        Ok(writeln!(out, "}};")?)
    }

    /// The lines that declare a field, each with the attributes of what it declares.
    fn lines(&self, field: &TypeData<'_>) -> Result<Vec<(pdb::FieldAttributes, String)>> {
        Ok(match field {
            TypeData::Member(it) => {
                let text = self.declare(it.field_type, &it.name.to_string())?;
                vec![(it.attributes, format!("{text}; // +{}", it.offset))]
            }
            TypeData::StaticMember(it) => {
                vec![(it.attributes, format!("static {};", self.declare(it.field_type, &it.name.to_string())?))]
            }
            TypeData::Method(it) => vec![(it.attributes, self.method(it.attributes, it.method_type, it.name)?)],
            TypeData::OverloadedMethod(it) => {
                let TypeData::MethodList(list) = self.get(it.method_list)? else { return Err("no methods".into()) };
                let methods = list.methods.iter();
                let line = |entry: &pdb::MethodListEntry| self.method(entry.attributes, entry.method_type, it.name);
                methods.map(|entry| Ok((entry.attributes, line(entry)?))).collect::<Result<_>>()?
            }
            _ => Vec::new(),
        })
    }

    fn method(&self, has: pdb::FieldAttributes, index: TypeIndex, name: pdb::RawString<'_>) -> Result<String> {
        let is_virtual = has.is_virtual() || has.is_pure_virtual() || has.is_intro_virtual();
        let word = if has.is_static() { "static" } else { "" };
        let word = if is_virtual { "virtual" } else { word };
        Ok(joined(word, &self.declare(index, &name.to_string())?) + ";")
    }
}

/// The type of a field that is part of an object.
fn part(field: &TypeData<'_>) -> Option<TypeIndex> {
    match field {
        TypeData::Member(it) => Some(it.field_type),
        TypeData::BaseClass(it) => Some(it.base_class),
        TypeData::VirtualBaseClass(it) => Some(it.base_class),
        _ => None,
    }
}

fn access(attributes: pdb::FieldAttributes) -> &'static str {
    match attributes.access() {
        1 => "private",
        2 => "protected",
        _ => "public",
    }
}

/// The declarations of the class of a name.
pub fn declarations(path: &str, name: &str) -> Result<String> {
    let mut file = pdb::PDB::open(std::fs::File::open(path)?)?;
    let information = file.type_information()?;
    let types = Types::read(&information)?;
    let class = information.iter().find_map(|item| match item.parse() {
        Ok(TypeData::Class(it)) if it.name.to_string() == name => Ok(Some(item.index())),
        Ok(_) | Err(pdb::Error::UnimplementedTypeKind(_)) => Ok(None),
        Err(error) => Err(error),
    })?;
    let mut out = String::new();
    types.write(class.ok_or("no such class")?, &mut HashSet::new(), &mut out)?;
    Ok(out)
}

#[allow(dead_code)] // where it is a part of another program
fn main() -> Result<()> {
    let words: Vec<_> = std::env::args().collect();
    let [_, path, name] = &words[..] else { return Err("usage: declarations FILE CLASS".into()) };
    print!("{}", declarations(path, name)?);
    Ok(())
}
