//! What the tests of the crate `pdb` 0.8 ask of the parts of a file that this library reads, asked of the module with its
//! names. The numbers are those that llvm-pdbutil tells of each file, and those in the tables as it exports them.
//!
//! The files are examples/sample.pdb, and those of Microsoft's tools that tests/setup keeps. A test of files that are
//! missing says so and ends well, but with CI=true in the environment it fails.

use std::collections::HashMap;
use std::fs::File;
use std::io::{self, Cursor, Read};
use std::path::PathBuf;

use pdb::{FallibleIterator, PdbInternalRva, PdbInternalSectionOffset, Rva, SectionOffset};
use pdb_container::pdb;

const SAMPLE: &str = concat!(env!("CARGO_MANIFEST_DIR"), "/../examples/sample.pdb");

type Opened = pdb::PDB<'static, File>;

fn sample() -> Opened {
    pdb::PDB::open(File::open(SAMPLE).unwrap()).unwrap()
}

/// What llvm-pdbutil tells of a file of Microsoft's tools.
struct Told {
    path: &'static str,
    types: usize,
    ids: usize,
    signature: u32,
    age: u32,
    guid: &'static str,
    sections: usize,
    /// At how many addresses a frame begins, of either format.
    frames: usize,
}

macro_rules! told {
    ($($path:literal $types:literal $ids:literal $signature:literal $age:literal $guid:literal $sections:literal
        $frames:literal)*) => {
        &[$(Told {
            path: $path, types: $types, ids: $ids, signature: $signature, age: $age, guid: $guid, sections: $sections,
            frames: $frames,
        },)*]
    };
}

const TOLD: &[Told] = told! {
    "lldb/unittests/SymbolFile/PDB/Inputs/test-pdb.pdb" 80 23 1456520326 1 "C16A11CA-886C-4AE8-AF76-98A42C39DADD" 3 5
    "llvm/test/DebugInfo/PDB/Inputs/big-read.pdb" 728 665 1461714535 1 "89CC0E88-81DF-4F0B-839C-58CBD052E937" 7 106
    "llvm/test/DebugInfo/PDB/Inputs/every-class.pdb" 157 48 1537393616 1 "3B94C326-9F58-4E5A-9878-255C8B5CE4FC" 4 0
    "llvm/test/DebugInfo/PDB/Inputs/every-enum.pdb" 141 48 1537210330 1 "567678AA-B500-4377-8106-B69FBB54612A" 4 0
    "llvm/test/DebugInfo/PDB/Inputs/every-function.pdb" 180 50 1537552916 2 "B5424085-4FFF-46D8-9D71-06E5B485BA86" 4 30
    "llvm/test/DebugInfo/PDB/Inputs/every-pointer.pdb" 162 47 1537219324 4 "C56FAD5C-9FB7-4777-9553-007A162B2968" 6 0
    "llvm/test/DebugInfo/PDB/Inputs/every-type.pdb" 173 34 1536958918 1 "A5E9B429-57D4-43C8-843B-D8783892E9FF" 5 0
    "llvm/test/DebugInfo/PDB/Inputs/pdbdump-globals-empty.pdb" 0 0 1509064448 1 "3B5BA6EA-DEF4-4C61-AC80-9766851413C1" 3 0
    "llvm/test/tools/llvm-pdbutil/Inputs/ComplexPaddingTest.pdb" 222 73 1492198114 1 "21E01E7C-9146-455C-9599-E13573C1E645" 5 51
    "llvm/test/tools/llvm-pdbutil/Inputs/FPOTest.pdb" 4 5 1548685807 19 "78776507-1792-44CC-A855-F87D1E55DEC7" 3 4
    "llvm/test/tools/llvm-pdbutil/Inputs/SimplePaddingTest.pdb" 219 88 1493056472 1 "40C9CC2C-45B8-45CD-800B-89E8B77AAE92" 5 51
    "llvm/test/tools/llvm-pdbutil/Inputs/UsingNamespaceTest.pdb" 78 16 1538329163 1 "A79AD9FE-6F21-40C9-B3EE-16C4D29B0D52" 4 0
};

/// Where tests/setup keeps a file of Microsoft's tools, None if it isn't there, of which the test is then told.
fn kept(path: &str) -> Option<PathBuf> {
    let cache = std::env::var_os("XDG_CACHE_HOME").filter(|it| !it.is_empty()).map(PathBuf::from);
    let cache = cache.or_else(|| Some(PathBuf::from(std::env::var_os("HOME")?).join(".cache")));
    let found = cache.unwrap_or_default().join("pdb_container/llvm-toolchain-19/files").join(path);
    if found.is_file() {
        return Some(found);
    }
    println!("skipped: {path} is missing, which tests/setup fetches");
    assert_ne!(std::env::var("CI").as_deref(), Ok("true"), "{path} is missing, which tests/setup fetches");
    None
}

/// The files of Microsoft's tools that are there.
fn microsoft() -> impl Iterator<Item = (&'static Told, Opened)> {
    TOLD.iter().filter_map(|told| Some((told, pdb::PDB::open(File::open(kept(told.path)?).unwrap()).unwrap())))
}

/// One of them.
fn microsoft_file(name: &str) -> Option<Opened> {
    microsoft().find(|(told, _)| told.path.ends_with(name)).map(|(_, file)| file)
}

// Types.

/// A walk along a table: its indexes increase by one from the first on, there are as many items as the table says, and a
/// finder that is updated along the walk finds each item so far again.
fn walk<I: pdb::ItemIndex>(table: &pdb::ItemInformation<'_, I>, count: usize) {
    assert_eq!((table.len(), table.is_empty()), (count, count == 0));
    let (mut finder, mut items, mut met) = (table.finder(), table.iter(), Vec::new());
    while let Some(item) = items.next().unwrap() {
        finder.update(&items);
        assert_eq!(item.index().into(), 0x1000 + met.len() as u32);
        assert!(!item.index().is_cross_module());
        met.push(item);
        assert!(finder.max_index() >= item.index());
        let again = finder.find(item.index()).unwrap();
        assert_eq!((again, again.index(), again.raw_kind()), (item, item.index(), item.raw_kind()));
    }
    assert_eq!(met.len(), count);
    assert_eq!(table.iter().count().unwrap(), count);
    assert!(met.iter().all(|item| finder.find(item.index()).unwrap() == *item));
    let behind = 0x1000 + count as u32;
    assert!(matches!(finder.find(behind.into()), Err(pdb::Error::TypeNotFound(it)) if it == behind));
}

#[test]
fn types_and_ids_one_after_another() {
    let mut file = sample();
    walk(&file.type_information().unwrap(), 91);
    walk(&file.id_information().unwrap(), 29);
    for (told, mut file) in microsoft() {
        println!("{}", told.path);
        walk(&file.type_information().unwrap(), told.types);
        walk(&file.id_information().unwrap(), told.ids);
    }
}

/// The fields of a list and of those in which it continues, found by their indexes.
fn fields<'t>(finder: &pdb::TypeFinder<'t>, list: pdb::TypeIndex) -> pdb::Result<Vec<pdb::TypeData<'t>>> {
    let pdb::TypeData::FieldList(list) = finder.find(list)?.parse()? else { panic!("{list} is no list of fields") };
    let mut found = list.fields;
    if let Some(more) = list.continuation {
        found.extend(fields(finder, more)?);
    }
    Ok(found)
}

/// The definition of a class and its fields, by its name.
fn class<'t>(
    table: &'t pdb::TypeInformation<'_>,
    name: &str,
) -> pdb::Result<(pdb::ClassType<'t>, Vec<pdb::TypeData<'t>>)> {
    let (mut finder, mut types) = (table.finder(), table.iter());
    while let Some(item) = types.next()? {
        finder.update(&types);
        match item.parse() {
            Ok(pdb::TypeData::Class(class))
                if class.name.as_bytes() == name.as_bytes() && !class.properties.forward_reference() =>
            {
                let fields = fields(&finder, class.fields.expect("a definition has fields"))?;
                return Ok((class, fields));
            }
            Ok(_) | Err(pdb::Error::UnimplementedTypeKind(_)) => {}
            Err(error) => return Err(error),
        }
    }
    panic!("no class {name}")
}

#[test]
fn a_class_with_its_fields_and_their_types() -> pdb::Result<()> {
    let mut file = sample();
    let table = file.type_information()?;
    let finder = table.finder();
    let (derived, fields) = class(&table, "Derived")?;
    assert_eq!((derived.kind, derived.count, derived.size), (pdb::ClassKind::Class, 19, 128));
    assert_eq!((derived.derived_from, derived.vtable_shape), (None, Some(pdb::TypeIndex(0x1001))));
    let has = derived.properties;
    assert!(has.constructors() && has.contains_nested_types() && has.has_unique_name());
    assert!(!(has.packed() || has.is_nested_type() || has.sealed() || has.scoped_definition()));
    assert_eq!(derived.unique_name, Some(".?AVDerived@@".into()));

    let members: Vec<_> = fields
        .iter()
        .filter_map(|it| if let pdb::TypeData::Member(it) = it { Some(it) } else { None })
        .map(|it| (it.name.to_string(), it.offset, it.field_type.0, it.attributes.access()))
        .collect();
    let told = [
        ("grid", 20, 0x1008),
        ("flags", 68, 0x1009),
        ("compare", 76, 0x100e),
        ("measure", 80, 0x1013),
        ("axis", 84, 0x1015),
        ("watched", 88, 0x1017),
        ("inner", 92, 0x1018),
        ("state", 104, 0x101a),
    ];
    assert_eq!(members, told.map(|(name, offset, index)| (name.into(), offset, index, 3)));

    // Each type that a member has is found: here, of the function to which `compare` points.
    let pdb::TypeData::Pointer(pointer) = finder.find(pdb::TypeIndex(0x100e))?.parse()? else { panic!("no pointer") };
    let attributes = pointer.attributes;
    assert_eq!(
        (attributes.pointer_kind(), attributes.pointer_mode()),
        (pdb::PointerKind::Near32, pdb::PointerMode::Pointer)
    );
    assert!(attributes.size() == 4 && !attributes.is_const() && !attributes.is_reference());
    let pdb::TypeData::Procedure(function) = finder.find(pointer.underlying_type)?.parse()? else { panic!("none") };
    assert_eq!((function.return_type, function.parameter_count), (Some(pdb::TypeIndex(0x74)), 2));
    assert_eq!(function.attributes.calling_convention(), 0);
    let pdb::TypeData::ArgumentList(list) = finder.find(function.argument_list)?.parse()? else { panic!("no list") };
    assert_eq!(list.arguments, [pdb::TypeIndex(0x100b), pdb::TypeIndex(0x74)]);
    let pdb::TypeData::Pointer(text) = finder.find(list.arguments[0])?.parse()? else { panic!("no pointer") };
    let modifier =
        pdb::ModifierType { underlying_type: pdb::TypeIndex(0x70), constant: true, volatile: false, unaligned: false };
    assert_eq!(finder.find(text.underlying_type)?.parse()?, pdb::TypeData::Modifier(modifier));

    // Base classes and methods.
    let bases = fields.iter().filter_map(|it| match it {
        pdb::TypeData::BaseClass(it) => Some((it.base_class.0, it.offset, it.attributes.access())),
        pdb::TypeData::VirtualBaseClass(it) => Some((it.base_class.0, it.base_pointer_offset, it.attributes.access())),
        _ => None,
    });
    assert_eq!(bases.collect::<Vec<_>>(), [(0x1002, 0, 3), (0x1003, 8, 1), (0x1004, 12, 3)]);
    let shared = fields.iter().find_map(|it| match it {
        pdb::TypeData::VirtualBaseClass(it) => Some((it.direct, it.base_pointer.0, it.virtual_base_offset)),
        _ => None,
    });
    assert_eq!(shared, Some((true, 0x1006, 1)));
    let methods = fields.iter().filter_map(|it| if let pdb::TypeData::Method(it) = it { Some(it) } else { None });
    let methods: HashMap<_, _> = methods.map(|it| (it.name.to_string().into_owned(), it)).collect();
    assert!(methods["area"].attributes.is_virtual() && methods["make"].attributes.is_static());
    assert_eq!((methods["share"].method_type, methods["share"].vtable_offset), (pdb::TypeIndex(0x1021), None));
    let pdb::TypeData::MemberFunction(share) = finder.find(pdb::TypeIndex(0x1021))?.parse()? else { panic!("none") };
    assert_eq!((share.class_type, share.this_pointer_type), (pdb::TypeIndex(0x1000), Some(pdb::TypeIndex(0x101b))));
    assert_eq!((share.this_adjustment, share.parameter_count), (112, 0));
    let pdb::TypeData::MemberFunction(created) = finder.find(methods["Derived"].method_type)?.parse()? else {
        panic!("none")
    };
    assert!(created.attributes.is_constructor() && !created.attributes.is_constructor_with_virtual_bases());
    let pdb::TypeData::MethodList(scale) = finder.find(pdb::TypeIndex(0x1025))?.parse()? else { panic!("no list") };
    assert_eq!(scale.methods.iter().map(|it| it.method_type.0).collect::<Vec<_>>(), [0x1022, 0x1024]);

    let (_, base) = class(&table, "Base")?;
    let area = base.iter().find_map(|it| if let pdb::TypeData::Method(it) = it { Some(it) } else { None }).unwrap();
    assert_eq!((area.name, area.vtable_offset), ("area".into(), Some(0)));
    assert!(area.attributes.is_intro_virtual());
    Ok(())
}

#[test]
fn enumerations_unions_arrays_and_bits() -> pdb::Result<()> {
    let mut file = sample();
    let table = file.type_information()?;
    let finder = table.finder();
    let parsed = |index: u32| finder.find(index.into())?.parse();
    let pdb::TypeData::Enumeration(colour) = parsed(0x1049)? else { panic!("no enumeration") };
    assert_eq!((colour.name, colour.underlying_type), ("shapes::Colour".into(), pdb::TypeIndex(0x20)));
    let values = fields(&finder, colour.fields)?;
    let values: Vec<_> = values
        .iter()
        .map(|it| match it {
            pdb::TypeData::Enumerate(it) => (it.name.to_string(), it.value.to_string()),
            other => panic!("{other:?}"),
        })
        .collect();
    assert_eq!(
        values,
        [("Red", "0"), ("Green", "7"), ("Blue", "255")].map(|(name, value)| (name.into(), value.into()))
    );
    // 800 values, in a list that continues in another one.
    let pdb::TypeData::Enumeration(code) = parsed(0x1053)? else { panic!("no enumeration") };
    assert_eq!((code.count, fields(&finder, code.fields)?.len()), (800, 800));
    let pdb::TypeData::Union(payload) = parsed(0x1046)? else { panic!("no union") };
    assert_eq!((payload.name, payload.size, payload.count), ("Payload".into(), 8, 4));
    assert!(payload.properties.sealed());
    let array = |element: u32, size| pdb::ArrayType {
        element_type: element.into(),
        indexing_type: pdb::TypeIndex(0x22),
        stride: None,
        dimensions: vec![size],
    };
    assert_eq!(parsed(0x1008)?, pdb::TypeData::Array(array(0x1007, 48)));
    assert_eq!(parsed(0x1007)?, pdb::TypeData::Array(array(0x74, 16)));
    let bits = pdb::BitfieldType { underlying_type: pdb::TypeIndex(0x75), length: 13, position: 3 };
    assert_eq!(parsed(0x103a)?, pdb::TypeData::Bitfield(bits));
    Ok(())
}

#[test]
fn classes_of_microsofts_compiler() -> pdb::Result<()> {
    let Some(mut file) = microsoft_file("every-class.pdb") else { return Ok(()) };
    let table = file.type_information()?;
    let (cast, _) = class(&table, "Cast")?;
    let (operator, methods) = class(&table, "Operator")?;
    assert!(cast.properties.overloaded_casting() && operator.properties.overloaded_operators());
    assert!(class(&table, "Assignment")?.0.properties.overloaded_assignment());
    assert!(class(&table, "Constructor")?.0.properties.constructors());
    assert!(class(&table, "Nested")?.0.properties.contains_nested_types());
    let (nested, _) = class(&table, "Nested::F")?;
    assert!(nested.properties.is_nested_type() && nested.kind == pdb::ClassKind::Struct);
    assert!(class(&table, "main::__l2::Scoped")?.0.properties.scoped_definition());
    assert!(methods.iter().any(|it| it.name() == Some("operator+".into())));
    Ok(())
}

#[test]
fn primitive_types() {
    use pdb::{Indirection::*, PrimitiveKind::*};
    let mut file = sample();
    let table = file.type_information().unwrap();
    let finder = table.finder();
    // As cvinfo.h numbers them, in TYPE_ENUM_e and CV_prmode_e.
    let known = [
        (0x0000, NoType, None),
        (0x0003, Void, None),
        (0x0103, Void, Some(Near16)),
        (0x0203, Void, Some(Far16)),
        (0x0303, Void, Some(Huge16)),
        (0x0403, Void, Some(Near32)),
        (0x0503, Void, Some(Far32)),
        (0x0603, Void, Some(Near64)),
        (0x0703, Void, Some(Near128)),
        (0x0008, HRESULT, None),
        (0x0010, Char, None),
        (0x0020, UChar, None),
        (0x0068, I8, None),
        (0x0069, U8, None),
        (0x0070, RChar, None),
        (0x0071, WChar, None),
        (0x007a, RChar16, None),
        (0x007b, RChar32, None),
        (0x0011, Short, None),
        (0x0021, UShort, None),
        (0x0072, I16, None),
        (0x0073, U16, None),
        (0x0012, Long, None),
        (0x0422, ULong, Some(Near32)),
        (0x0074, I32, None),
        (0x0675, U32, Some(Near64)),
        (0x0013, Quad, None),
        (0x0023, UQuad, None),
        (0x0076, I64, None),
        (0x0077, U64, None),
        (0x0014, Octa, None),
        (0x0024, UOcta, None),
        (0x0078, I128, None),
        (0x0079, U128, None),
        (0x0046, F16, None),
        (0x0040, F32, None),
        (0x0441, F64, Some(Near32)),
        (0x0042, F80, None),
        (0x0043, F128, None),
        (0x0050, Complex32, None),
        (0x0030, Bool8, None),
        (0x0033, Bool64, None),
    ];
    for (index, kind, indirection) in known {
        let item = finder.find(pdb::TypeIndex(index)).unwrap();
        let wanted = pdb::TypeData::Primitive(pdb::PrimitiveType { kind, indirection });
        assert_eq!((item.index().0, item.parse().unwrap()), (index, wanted));
    }
    for unknown in [0x0001, 0x00ff, 0x0800, 0x0fff] {
        let read = finder.find(pdb::TypeIndex(unknown)).and_then(|it| it.parse());
        assert!(matches!(read, Err(pdb::Error::TypeNotFound(it)) if it == unknown), "{unknown:#x}: {read:?}");
    }
}

// Ids.

#[test]
fn functions_texts_and_builds() -> pdb::Result<()> {
    let mut file = sample();
    let (types, ids) = (file.type_information()?, file.id_information()?);
    let (type_finder, finder) = (types.finder(), ids.finder());
    let parsed = |index: u32| finder.find(index.into())?.parse();
    let named: HashMap<_, _> =
        ids.iter().filter_map(|item| Ok(item.parse()?.name().map(|name| (item.index().0, name)))).collect()?;
    assert_eq!(
        (named[&0x100f], named[&0x1011], named[&0x1014]),
        ("share".into(), "mainCRTStartup".into(), "share".into())
    );

    let pdb::IdData::Function(measure) = parsed(0x100e)? else { panic!("no function") };
    assert_eq!((measure.scope, measure.name), (None, "measure".into()));
    let pdb::TypeData::Procedure(its_type) = type_finder.find(measure.function_type)?.parse()? else { panic!("none") };
    // __stdcall
    assert_eq!((its_type.parameter_count, its_type.attributes.calling_convention()), (3, 7));

    let pdb::IdData::MemberFunction(make) = parsed(0x100b)? else { panic!("no method") };
    assert_eq!((make.parent, make.function_type), (pdb::TypeIndex(0x1000), pdb::TypeIndex(0x102c)));
    assert_eq!(type_finder.find(make.parent)?.parse()?.name(), Some("Derived".into()));

    let text = pdb::StringId { substrings: None, name: "sample.cpp".into() };
    assert_eq!(parsed(0x1018)?, pdb::IdData::String(text));
    let pdb::IdData::BuildInfo(build) = parsed(0x101c)? else { panic!("no build") };
    let parts: Vec<_> = build.arguments.iter().map(|it| finder.find(*it)?.parse()).collect::<pdb::Result<_>>()?;
    let parts: Vec<_> = parts.iter().map(|it| it.name().unwrap().to_string()).collect();
    assert_eq!(parts[..4], ["/sample", "/usr/lib/llvm-14/bin/clang", "sample.cpp", ""]);
    assert!(parts.len() == 5 && parts[4].starts_with("\"-cc1\" \"-triple\" \"i686-pc-windows-msvc19.20.0\""));

    let source = pdb::UserDefinedTypeSourceId {
        udt: pdb::TypeIndex(0x102e),
        source_file: pdb::UserDefinedTypeSourceFileRef::Local(pdb::IdIndex(0x1000)),
        line: 63,
    };
    assert_eq!(parsed(0x1002)?, pdb::IdData::UserDefinedTypeSource(source));
    Ok(())
}

#[test]
fn scopes_of_functions() -> pdb::Result<()> {
    let mut seen = 0;
    for (told, mut file) in microsoft() {
        let ids = file.id_information()?;
        let finder = ids.finder();
        ids.iter().for_each(|item| {
            if let pdb::IdData::Function(pdb::FunctionId { scope: Some(scope), name, .. }) = item.parse()? {
                // A scope is the text of a namespace, which stands before the function.
                assert!(scope < item.index());
                let found = finder.find(scope)?.parse()?;
                assert!(matches!(found, pdb::IdData::String(_)), "{}: {name}: {found:?}", told.path);
                seen += 1;
            }
            Ok(())
        })?;
    }
    assert!(seen > 0 || microsoft().next().is_none());
    Ok(())
}

// What stream 1 says, and streams.

#[test]
fn version_signature_age_and_guid() {
    let about = sample().pdb_information().unwrap();
    assert_eq!((about.version, about.signature, about.age), (20_000_404, 3_402_998_862, 1));
    assert_eq!(about.guid.to_string(), "CAD5A44E-0F4E-3F06-4C4C-44205044422E");
    for (told, mut file) in microsoft() {
        let about = file.pdb_information().unwrap();
        assert_eq!(
            (about.version, about.signature, about.age),
            (20_000_404, told.signature, told.age),
            "{}",
            told.path
        );
        assert_eq!(about.guid.to_string(), told.guid);
    }
}

#[test]
fn streams_by_name_and_by_number() -> pdb::Result<()> {
    let mut file = sample();
    let about = file.pdb_information()?;
    let names = about.stream_names()?;
    let all: Vec<_> = names.iter().map(|it| (it.name.to_string(), it.stream_id.0)).collect();
    assert_eq!(all, [("/names".into(), 14), ("/LinkInfo".into(), 5)]);
    for name in &names {
        let by_number = name.stream_id.get(&mut file)?.expect("it has a number");
        assert_eq!(by_number.as_slice(), file.named_stream(name.name.as_bytes())?.as_slice());
    }
    for (number, size) in [(0, 0), (1, 93), (2, 69948), (10, 160), (14, 176), (19, 16)] {
        let index = pdb::StreamIndex(number);
        assert!(index.is_some() && index.to_string() == number.to_string());
        assert_eq!(file.raw_stream(index)?.expect("it has a number").len(), size);
    }
    assert_eq!(&file.raw_stream(pdb::StreamIndex(10))?.unwrap()[..5], b".text");
    assert!(matches!(file.named_stream(b"/none"), Err(pdb::Error::StreamNameNotFound)));
    // An index may name no stream; a number that the file lacks is an error.
    let none = pdb::StreamIndex::none();
    assert!(none.is_none() && none == pdb::StreamIndex::default() && none.to_string() == "None");
    assert!(file.raw_stream(none)?.is_none() && none.get(&mut file)?.is_none());
    assert!(matches!(file.raw_stream(pdb::StreamIndex(20)), Err(pdb::Error::StreamNotFound(20))));
    Ok(())
}

#[test]
fn names_of_the_string_table() -> pdb::Result<()> {
    let strings = sample().string_table()?;
    let told = [
        (0, ""),
        (2, "$T0 .raSearch = $eip $T0 ^ = $esp $T0 4 + = "),
        (47, "$T0 .raSearch = $eip $T0 ^ = $esp $T0 4 + = $esi $T0 4 - ^ = "),
        (109, "/sample/sample.cpp"),
        // The rest of a name is one, too.
        (117, "sample.cpp"),
    ];
    for (offset, name) in told {
        let offset = pdb::StringRef::from(offset);
        assert_eq!(strings.get(offset)?, name.into());
        assert_eq!(offset.to_raw_string(&strings)?.as_bytes(), name.as_bytes());
        assert_eq!(offset.to_string_lossy(&strings)?, name);
    }
    assert_eq!(format!("{0} {0:?}", pdb::StringRef(109)), "0x6d StringRef(0x6d)");
    assert!(matches!(strings.get(pdb::StringRef(128)), Err(pdb::Error::UnexpectedEof)));
    assert_eq!(pdb::RawString::from(&b"caf\xe9"[..]).to_string(), "caf\u{fffd}");
    Ok(())
}

#[test]
fn no_file_and_parts_of_one() {
    let bytes = std::fs::read(SAMPLE).unwrap();
    let open = |bytes: &[u8]| pdb::PDB::open(Cursor::new(bytes.to_vec()));
    for other in [&b""[..], b"Microsoft C/C++ MSF 7.00\r\n\x1aDS", &[b'M'; 8192], &bytes[1..], &bytes[..4095]] {
        assert!(matches!(open(other), Err(pdb::Error::UnrecognizedFileFormat)));
    }
    // The header and the directory are among the first pages, and most of the types behind them.
    let mut cut = open(&bytes[..20_480]).unwrap();
    assert!(
        matches!(cut.type_information(), Err(pdb::Error::IoError(it)) if it.kind() == io::ErrorKind::UnexpectedEof)
    );
    if let Some(stub) = kept("llvm/test/DebugInfo/PDB/Inputs/bad-block-size.pdb") {
        assert!(matches!(pdb::PDB::open(File::open(stub).unwrap()), Err(pdb::Error::UnrecognizedFileFormat)));
    }
}

/// A source that neither reads nor seeks.
#[derive(Debug)]
struct Mapped(Vec<u8>);

#[derive(Debug)]
struct Part(Vec<u8>);

impl<'s> pdb::Source<'s> for Mapped {
    fn view(&mut self, slices: &[pdb::SourceSlice]) -> Result<Box<dyn pdb::SourceView<'s>>, io::Error> {
        let mut part = Vec::new();
        for slice in slices {
            let found = self.0.get(slice.offset as usize..).and_then(|it| it.get(..slice.size));
            part.extend(found.ok_or(io::ErrorKind::UnexpectedEof)?);
        }
        Ok(Box::new(Part(part)))
    }
}

impl pdb::SourceView<'_> for Part {
    fn as_slice(&self) -> &[u8] {
        &self.0
    }
}

#[test]
fn sources() {
    let bytes = std::fs::read(SAMPLE).unwrap();
    let mut mapped = pdb::PDB::open(Mapped(bytes.clone())).unwrap();
    walk(&mapped.type_information().unwrap(), 91);
    let open = |bytes: &[u8]| pdb::PDB::open(Mapped(bytes.to_vec())).map(|_| ());
    assert!(matches!(open(&bytes[..4095]), Err(pdb::Error::UnrecognizedFileFormat)));
    assert!(matches!(open(&[0; 4096]), Err(pdb::Error::UnrecognizedFileFormat)));
    // What reads and seeks has slices, too.
    let slices = [(86_000, 5), (0, 9)].map(|(offset, size)| pdb::SourceSlice { offset, size });
    let mut file = File::open(SAMPLE).unwrap();
    file.read_exact(&mut [0; 100]).unwrap();
    let view = pdb::Source::view(&mut file, &slices).unwrap();
    assert_eq!(view.as_slice(), [&bytes[86_000..86_005], b"Microsoft"].concat());
    let behind = pdb::SourceSlice { offset: bytes.len() as u64 - 1, size: 2 };
    assert_eq!(pdb::Source::view(&mut file, &[behind]).unwrap_err().kind(), io::ErrorKind::UnexpectedEof);
}

// Addresses. The OMAP tables of the sample file move, by pairs of source and target:
// to the original image  1000 11a0, 1010 1180, 1030 1160, 1050 10b0, 1100 1090, 1120 1020, 1190 1000, 11a0 0, 2000 2000
// from it                1000 1190, 1010 0, 1020 1120, 1090 1100, 10b0 1050, 1160 1030, 1180 1010, 11a0 1000, 2000 2000

#[test]
fn addresses_of_a_moved_image() {
    let map = sample().address_map().unwrap();
    // Of the original image, its place there, of the image as it is loaded, and its place there.
    let moved = [
        (0x1000, (1, 0x0), 0x1190, (1, 0x190)),
        (0x100f, (1, 0xf), 0x119f, (1, 0x19f)),
        (0x1020, (1, 0x20), 0x1120, (1, 0x120)),
        (0x10b5, (1, 0xb5), 0x1055, (1, 0x55)),
        (0x11a0, (1, 0x1a0), 0x1000, (1, 0x0)),
        (0x2000, (2, 0x0), 0x2000, (2, 0x0)),
        (0x3010, (3, 0x10), 0x3010, (3, 0x10)),
    ];
    for (internal, (section, offset), rva, (new_section, new_offset)) in moved {
        let (internal, rva) = (PdbInternalRva(internal), Rva(rva));
        let (place, new_place) =
            (PdbInternalSectionOffset::new(section, offset), SectionOffset::new(new_section, new_offset));
        assert_eq!(
            (internal.to_rva(&map), place.to_rva(&map), new_place.to_rva(&map)),
            (Some(rva), Some(rva), Some(rva))
        );
        assert_eq!((rva.to_internal_rva(&map), rva.to_internal_offset(&map)), (Some(internal), Some(place)));
        assert_eq!((rva.to_section_offset(&map), place.to_section_offset(&map)), (Some(new_place), Some(new_place)));
        assert_eq!((place.to_internal_rva(&map), new_place.to_internal_rva(&map)), (Some(internal), Some(internal)));
        assert_eq!((internal.to_internal_offset(&map), new_place.to_internal_offset(&map)), (Some(place), Some(place)));
        assert_eq!(internal.to_section_offset(&map), Some(new_place));
    }
    // A function that is gone.
    assert_eq!(PdbInternalRva(0x1018).to_rva(&map), None);
    assert_eq!(PdbInternalSectionOffset::new(1, 0x18).to_rva(&map), None);
    assert_eq!(PdbInternalSectionOffset::new(1, 0x18).to_internal_rva(&map), Some(PdbInternalRva(0x1018)));
    // What the image had added.
    assert_eq!(Rva(0x11a8).to_internal_rva(&map), None);
}

#[test]
fn addresses_that_are_nowhere() {
    let map = sample().address_map().unwrap();
    assert_eq!((PdbInternalRva(0).to_rva(&map), Rva(0).to_internal_rva(&map)), (None, None));
    for section in [0, 5, 0xffff] {
        assert_eq!(SectionOffset::new(section, 0x10).to_rva(&map), None);
        assert_eq!(PdbInternalSectionOffset::new(section, 0x10).to_rva(&map), None);
        assert_eq!(PdbInternalSectionOffset::new(section, 0x10).to_internal_rva(&map), None);
    }
    assert!(!SectionOffset::default().is_valid() && SectionOffset::new(1, 0).is_valid());
    // Behind a section, and behind the last one: each takes 0x200 bytes of the image's file.
    assert_eq!(Rva(0x41ff).to_section_offset(&map), Some(SectionOffset::new(4, 0x1ff)));
    for behind in [0x1200, 0x1fff, 0x4200, u32::MAX] {
        assert_eq!(
            (Rva(behind).to_section_offset(&map), PdbInternalRva(behind).to_internal_offset(&map)),
            (None, None)
        );
    }
}

#[test]
fn ranges_of_a_moved_image() {
    let map = sample().address_map().unwrap();
    let loaded =
        |start, end| map.rva_ranges(PdbInternalRva(start)..PdbInternalRva(end)).map(|it| (it.start.0, it.end.0));
    let original = |start, end| map.internal_rva_ranges(Rva(start)..Rva(end)).map(|it| (it.start.0, it.end.0));
    // Within a record, over several, over one that moves nowhere, before the first, and of no addresses.
    assert_eq!(loaded(0x1002, 0x1004).collect::<Vec<_>>(), [(0x1192, 0x1194)]);
    assert_eq!(loaded(0x1008, 0x1028).collect::<Vec<_>>(), [(0x1198, 0x11a0), (0x1120, 0x1128)]);
    assert_eq!(loaded(0x1010, 0x1020).count(), 0);
    assert_eq!(loaded(0, 0x1000).count(), 0);
    assert_eq!(loaded(0x1004, 0x1004).count(), 0);
    assert_eq!(original(0x1008, 0x1038).collect::<Vec<_>>(), [(0x11a8, 0x11b0), (0x1180, 0x11a0), (0x1160, 0x1168)]);
    // A range has the bytes that its addresses have one by one.
    let bytes: Vec<_> = (0x1000..0x2100).filter_map(|it| PdbInternalRva(it).to_rva(&map)).map(|it| it.0).collect();
    assert_eq!(loaded(0x1000, 0x2100).flat_map(|(start, end)| start..end).collect::<Vec<_>>(), bytes);
}

#[test]
fn addresses_of_an_image_that_was_not_moved() {
    for (told, mut file) in microsoft() {
        println!("{}", told.path);
        let (map, sections) = (file.address_map().unwrap(), file.sections().unwrap().unwrap());
        assert_eq!(sections.len(), told.sections);
        for (number, section) in (1..).zip(&sections) {
            let (rva, internal) = (Rva(section.virtual_address + 3), PdbInternalRva(section.virtual_address + 3));
            assert_eq!((internal.to_rva(&map), rva.to_internal_rva(&map)), (Some(rva), Some(internal)));
            // A section goes as far as the image's file has bytes of it.
            let place = (section.size_of_raw_data > 3).then_some(SectionOffset::new(number, 3));
            assert_eq!(rva.to_section_offset(&map), place);
            assert_eq!(PdbInternalSectionOffset::new(number, 3).to_rva(&map), Some(rva));
        }
        assert_eq!(
            map.rva_ranges(PdbInternalRva(0x10)..PdbInternalRva(0x20)).collect::<Vec<_>>(),
            [Rva(0x10)..Rva(0x20)]
        );
    }
}

#[test]
fn sums_of_addresses() {
    let (low, high) = (Rva(0x10), Rva(u32::MAX - 1));
    assert_eq!((low + 4, Rva(0x14) - low), (Rva(0x14), 4));
    assert_eq!((high.checked_add(1), high.checked_add(2)), (Some(Rva(u32::MAX)), None));
    assert_eq!((high.saturating_add(9), high.wrapping_add(3)), (Rva(u32::MAX), Rva(1)));
    assert_eq!((low.checked_sub(high), low.saturating_sub(high), low.wrapping_sub(high)), (None, 0, 0x12));
    let mut place = PdbInternalSectionOffset::new(2, u32::MAX - 1);
    place += 1;
    assert_eq!((place.offset, place.checked_add(1), place.wrapping_add(1).offset), (u32::MAX, None, 0));
    assert_eq!(place.saturating_add(7), place);
    // Places of one section are before or after one another.
    assert!(SectionOffset::new(1, 8) < SectionOffset::new(1, 9));
    assert_eq!(SectionOffset::new(1, 8).partial_cmp(&SectionOffset::new(2, 9)), None);
    assert_eq!(format!("{0} {0:?}", Rva(0x12ab)), "0x12ab Rva(0x12ab)");
    assert_eq!(format!("{0} {0:?}", pdb::TypeIndex(0x1000)), "0x1000 TypeIndex(0x1000)");
}

// Frames.

/// The kind, the start, the size of the code, of locals, of parameters, of the prolog and of saved registers, and the
/// program.
type Frame = (pdb::FrameType, u32, u32, u32, u32, u16, u16, Option<u32>);

fn frame(it: pdb::FrameData) -> Frame {
    let program = it.program.map(u32::from);
    (it.ty, it.code_start.0, it.code_size, it.locals_size, it.params_size, it.prolog_size, it.saved_regs_size, program)
}

#[test]
fn frames_of_both_formats() -> pdb::Result<()> {
    use pdb::FrameType::{FPO, FrameData};
    let mut file = sample();
    let (table, strings) = (file.frame_table()?, file.string_table()?);
    // The older format counts parameters in words of four bytes.
    let told = [
        (FPO, 0x1000, 16, 0, 4, 0, 0, None),
        (FrameData, 0x1010, 3, 0, 0, 0, 0, Some(2)),
        (FrameData, 0x1020, 100, 0, 8, 0, 0, Some(2)),
        (FrameData, 0x1090, 21, 0, 12, 0, 0, Some(2)),
        (FrameData, 0x10b0, 170, 0, 0, 1, 0, Some(2)),
        (FrameData, 0x10b1, 169, 0, 0, 0, 4, Some(47)),
        (FrameData, 0x1160, 13, 0, 8, 0, 0, Some(2)),
        (FrameData, 0x1180, 11, 0, 4, 0, 0, Some(2)),
        (FrameData, 0x11a0, 1, 0, 0, 0, 0, Some(2)),
    ];
    assert!(!table.is_empty());
    assert_eq!(table.iter().map(|it| Ok(frame(it))).collect::<Vec<_>>()?, told);
    let from = |address| table.iter_at_rva(PdbInternalRva(address)).map(|it| Ok(frame(it))).collect::<Vec<_>>();
    // The frame in which an address lies, or else the next one, and those behind it.
    for (address, first) in
        [(0, 0), (0x1005, 0), (0x1010, 1), (0x1050, 2), (0x1088, 3), (0x10b0, 4), (0x10b8, 5), (0x11a0, 8)]
    {
        assert_eq!(from(address)?, told[first..], "{address:#x}");
    }
    assert!(from(0x11a1)?.is_empty() && from(u32::MAX)?.is_empty());
    let starts = table.iter().filter(|it| Ok(it.is_function_start)).count()?;
    assert_eq!(starts, 7);
    let all: Vec<_> = table.iter().collect()?;
    assert!(all.iter().all(|it| !it.has_structured_eh && !it.has_cpp_eh && !it.uses_base_pointer));
    assert_eq!((all[0].max_stack_size, all[1].max_stack_size), (None, Some(0)));
    let program = all[5].program.unwrap().to_string_lossy(&strings)?;
    assert_eq!(program, "$T0 .raSearch = $eip $T0 ^ = $esp $T0 4 + = $esi $T0 4 - ^ = ");
    assert_eq!([FPO, pdb::FrameType::Standard, FrameData].map(|it| it.to_string()), ["fpo", "std", "fdata"]);
    Ok(())
}

#[test]
fn frames_around_others() -> pdb::Result<()> {
    let mut bytes = std::fs::read(SAMPLE).unwrap();
    // The record of the older format is made longer, so that it holds frames of the newer one.
    let older = [0x1000_u32, 16, 0, 1].map(u32::to_le_bytes).concat();
    let at = bytes.windows(16).position(|it| it == older).unwrap();
    bytes[at + 4..at + 8].copy_from_slice(&0x200_u32.to_le_bytes());
    let table = pdb::PDB::open(Cursor::new(bytes))?.frame_table()?;
    // Each format begins with its own frame that has the address, or else with the next one.
    let from = |address| table.iter_at_rva(PdbInternalRva(address)).map(|it| Ok(it.code_start.0)).collect::<Vec<_>>();
    assert_eq!(from(0x10b8)?, [0x1000, 0x10b1, 0x1160, 0x1180, 0x11a0]);
    assert_eq!(from(0x1088)?, [0x1000, 0x1090, 0x10b0, 0x10b1, 0x1160, 0x1180, 0x11a0]);
    assert_eq!((from(0x11ff)?, from(0x1200)?), (vec![0x1000], vec![]));
    Ok(())
}

#[test]
fn frames_of_microsofts_tools() -> pdb::Result<()> {
    for (told, mut file) in microsoft() {
        println!("{}", told.path);
        let table = file.frame_table()?;
        let all: Vec<_> = table.iter().collect()?;
        assert_eq!((all.len(), table.is_empty()), (told.frames, told.frames == 0));
        assert!(all.windows(2).all(|it| it[0].code_start < it[1].code_start));
        if all.is_empty() {
            continue;
        }
        let strings = file.string_table()?;
        for it in &all {
            assert_eq!(table.iter_at_rva(it.code_start).next()?.as_ref(), Some(it));
            let program = it.program.map(|it| it.to_string_lossy(&strings)).transpose()?;
            assert_eq!(program.is_some(), it.ty == pdb::FrameType::FrameData);
            assert!(program.is_none_or(|it| it.contains("$T0") || it.contains("$eip")));
        }
    }
    Ok(())
}

// Sections.

#[test]
fn section_headers() -> pdb::Result<()> {
    let sections = sample().sections()?.unwrap();
    let rows: Vec<_> = sections
        .iter()
        .map(|it| (it.name(), it.virtual_size, it.virtual_address, it.size_of_raw_data, it.pointer_to_raw_data))
        .collect();
    let told = [
        (".text", 0x1a0, 0x1000, 0x200, 0x400),
        (".rdata", 0x6f, 0x2000, 0x200, 0x600),
        (".data", 0xb0, 0x3000, 0x200, 0x800),
        (".reloc", 0x60, 0x4000, 0x200, 0xa00),
    ];
    assert_eq!(rows, told);
    let flags = sections.iter().map(|it| it.characteristics.to_string());
    assert_eq!(flags.collect::<Vec<_>>(), ["0x60000020", "0x40000040", "0xc0000040", "0x42000040"]);
    let [text, .., reloc] = &sections[..] else { panic!("sections are missing") };
    assert!(text.characteristics.executable() && text.characteristics.execute() && text.characteristics.read());
    assert!(!text.characteristics.write() && !text.characteristics.discardable());
    assert!(reloc.characteristics.discardable() && reloc.characteristics.initialized_data());
    assert!((text.number_of_relocations, text.number_of_line_numbers) == (0, 0));
    Ok(())
}

#[test]
fn names_and_characteristics_of_sections() {
    let named = |name: &[u8; 8]| pdb::ImageSectionHeader { name: *name, ..Default::default() };
    assert_eq!(named(b".data\0\0\0").name(), ".data");
    assert_eq!(named(b".textbss").name(), ".textbss");
    assert_eq!(named(b"\0\0\0\0\0\0\0\0").name(), "");
    let flags = pdb::SectionCharacteristics(0xc800_0040);
    assert!(flags.initialized_data() && flags.not_paged() && flags.read() && flags.write());
    assert!(!flags.executable() && !flags.execute() && !flags.shared());
    assert_eq!(flags.alignment(), None);
    assert_eq!(pdb::SectionCharacteristics(0x0050_0000).alignment(), Some(16));
    assert_eq!(pdb::SectionCharacteristics(0x00e0_0000).alignment(), Some(8192));
    assert_eq!(pdb::SectionCharacteristics(0x0000_0008).alignment(), Some(1));
}

// Iterators.

/// The numbers below a bound, each of which may fail.
#[derive(Debug, Clone)]
struct Numbers(std::ops::Range<u32>, Option<u32>);

impl FallibleIterator for Numbers {
    type Item = u32;
    type Error = u32;

    fn next(&mut self) -> Result<Option<u32>, u32> {
        match self.0.next() {
            it if it.is_some() && it == self.1 => Err(self.1.unwrap_or_default()),
            it => Ok(it),
        }
    }
}

#[test]
fn adapters_do_as_those_of_the_standard_library() -> Result<(), u32> {
    let ours = |end| Numbers(0..end, None);
    let theirs = |end: u32| 0..end;
    fn all<I: FallibleIterator<Item = T, Error = u32>, T>(it: I) -> Vec<T> {
        it.collect().unwrap()
    }
    for end in [0, 1, 2, 7] {
        let list = |it: &mut dyn Iterator<Item = u32>| it.collect::<Vec<_>>();
        assert_eq!(all(ours(end)), list(&mut theirs(end)));
        assert_eq!(all(ours(end).filter_map(|it| Ok((it % 2 == 0).then_some(it)))), list(&mut theirs(end).step_by(2)));
        assert_eq!(all(ours(end).enumerate()), theirs(end).enumerate().collect::<Vec<_>>());
        assert_eq!(all(ours(end).take_while(|it| Ok(*it != 3))), list(&mut theirs(end.min(3))));
        assert_eq!(all(ours(end).skip_while(|it| Ok(*it != 3))), list(&mut theirs(end).skip(3)));
        assert_eq!(all(ours(end).chain(ours(2))), list(&mut theirs(end).chain(0..2)));
        assert_eq!(all(ours(end).zip(ours(2))), theirs(end).zip(0..2).collect::<Vec<_>>());
        assert_eq!(all(ours(end).flat_map(|it| Ok(ours(it)))), list(&mut theirs(end).flat_map(theirs)));
        for count in [0, 1, 3, 9] {
            assert_eq!(all(ours(end).take(count)), list(&mut theirs(end).take(count)));
            assert_eq!(all(ours(end).skip(count)), list(&mut theirs(end).skip(count)));
            assert_eq!(all(ours(end).step_by(count + 1)), list(&mut theirs(end).step_by(count + 1)));
            let (mut one, mut other) = (ours(end), theirs(end));
            assert_eq!((one.nth(count)?, one.next()?), (other.nth(count), other.next()));
        }
        assert_eq!((ours(end).last()?, ours(end).count()?), (theirs(end).last(), theirs(end).count()));
        assert_eq!((ours(end).max()?, ours(end).min()?), (theirs(end).max(), theirs(end).min()));
        assert_eq!(ours(end).max_by_key(|it| Ok(it % 3))?, theirs(end).max_by_key(|it| it % 3));
        assert_eq!(ours(end).min_by_key(|it| Ok(it % 3))?, theirs(end).min_by_key(|it| it % 3));
        assert_eq!(ours(end).any(|it| Ok(it == 1))?, theirs(end).any(|it| it == 1));
        assert_eq!(ours(end).all(|it| Ok(it < 2))?, theirs(end).all(|it| it < 2));
        assert_eq!(ours(end).find(|it| Ok(*it > 4))?, theirs(end).find(|it| *it > 4));
        assert_eq!(ours(end).position(|it| Ok(it == 5))?, theirs(end).position(|it| it == 5));
        assert_eq!(
            ours(end).find_map(|it| Ok((it > 4).then_some(it * 2)))?,
            theirs(end).find(|it| *it > 4).map(|it| it * 2)
        );
        let halves: (Vec<_>, Vec<_>) = ours(end).partition(|it| Ok(it % 2 == 0))?;
        assert_eq!(halves, theirs(end).partition(|it| it % 2 == 0));
    }
    // What is taken by reference leaves the rest, and what is looked at stays.
    let mut numbers = ours(7);
    assert_eq!((all(numbers.by_ref().take(2)), numbers.next()?), (vec![0, 1], Some(2)));
    let mut peekable = numbers.peekable();
    assert_eq!((peekable.peek()?.copied(), peekable.next()?, peekable.next()?), (Some(3), Some(3), Some(4)));
    let mut seen = Vec::new();
    let mut boxed: Box<dyn FallibleIterator<Item = u32, Error = u32>> = Box::new(ours(2).fuse());
    assert_eq!(boxed.by_ref().inspect(|it| (seen.push(*it), Ok(())).1).count(), Ok(2));
    assert_eq!((seen, boxed.next()), (vec![0, 1], Ok(None)));
    Ok(())
}

#[test]
fn adapters_give_the_first_error() {
    let failing = || Numbers(0..7, Some(3));
    assert_eq!(failing().take(4).count(), Err(3));
    assert_eq!(failing().take(3).count(), Ok(3));
    assert_eq!((failing().skip(5).next(), failing().last(), failing().nth(6)), (Err(3), Err(3), Err(3)));
    assert_eq!((failing().any(|it| Ok(it == 2)), failing().any(|it| Ok(it == 5))), (Ok(true), Err(3)));
    assert_eq!(failing().map(|it| if it == 1 { Err(77) } else { Ok(it) }).collect::<Vec<_>>(), Err(77));
    assert_eq!(failing().filter(|it| if *it == 2 { Err(78) } else { Ok(true) }).count(), Err(78));
    assert_eq!(failing().map_err(|error| error.to_string()).count(), Err("3".to_string()));
    assert_eq!(failing().iterator().filter_map(Result::ok).collect::<Vec<_>>(), [0, 1, 2, 4, 5, 6]);
}
