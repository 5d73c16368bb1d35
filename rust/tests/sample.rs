//! Reads examples/sample.pdb, and copies of it with damage.

use damaged::damaged;
use pdb_container::{
    Address, AddressMap, Error, ErrorKind, Extent, Features, Format, FrameKind, Frames, IdShape, Inconsistency,
    KeyForm, LayoutIter, LayoutKind, LayoutRow, Names, Omap, Part, Pdb, Problem, Shape, Types, validate, validate_all,
};

mod damaged;

fn sample() -> Vec<u8> {
    std::fs::read(concat!(env!("CARGO_MANIFEST_DIR"), "/../examples/sample.pdb")).unwrap()
}

/// A copy in which some bytes, which are there once, are others.
fn replaced(file: &[u8], from: &[u8], to: &[u8]) -> Vec<u8> {
    let places: Vec<_> = file.windows(from.len()).enumerate().filter(|(_, it)| *it == from).map(|(at, _)| at).collect();
    assert_eq!(places.len(), 1);
    let mut copy = file.to_vec();
    copy[places[0]..][..to.len()].copy_from_slice(to);
    copy
}

/// What a call gives, without where its error is.
fn kind<T>(result: Result<T, Error>) -> Result<T, ErrorKind> {
    result.map_err(|error| error.kind)
}

#[test]
fn header_and_streams() {
    let file = sample();
    let pdb = Pdb::parse(&file).unwrap();
    assert_eq!((pdb.page_size(), pdb.stream_count(), pdb.stream_size(10)), (512, 20, Ok(160)));
    assert_eq!(pdb.stream_prefix(10, 5).unwrap(), b".text");
    assert_eq!(pdb.stream(10).unwrap().len(), 160);
    assert_eq!(kind(pdb.stream(99)), Err(ErrorKind::StreamNotFound { number: 99 }));
    assert_eq!(pdb.named_stream("/names").unwrap(), pdb.stream(14).unwrap());
    assert_eq!(kind(pdb.named_stream("/none")), Err(ErrorKind::StreamNameNotFound));
    let named: Vec<_> = pdb.named_streams().unwrap().iter().map(|it| (it.name().to_string(), it.number)).collect();
    assert_eq!(named, [("/names".to_string(), Some(14)), ("/LinkInfo".to_string(), Some(5))]);
    let roles = pdb.roles().unwrap();
    assert_eq!((roles.framedata, roles.fpo, roles.pdata), (Some(11), Some(19), None));
    let about = pdb.information().unwrap();
    assert_eq!((about.version, about.age), (20000404, 1));
    assert_eq!(about.guid.to_string().len(), 36);
}

#[test]
fn errors_say_which_stream_it_is() {
    let file = sample();
    let pdb = Pdb::parse(&file).unwrap();
    let missing = pdb.stream_size(99).unwrap_err();
    assert_eq!((missing.kind, missing.stream), (ErrorKind::StreamNotFound { number: 99 }, Some(99)));
    assert_eq!(pdb.stream(99), Err(missing));
    let unnamed = pdb.named_stream("/none").unwrap_err();
    assert_eq!((unnamed.kind, unnamed.name.as_deref()), (ErrorKind::StreamNameNotFound, Some("/none")));
    assert!(unnamed.to_string().ends_with(" [stream /none]"), "{unnamed}");
    // The table has 128 bytes of names, behind a header of 12 bytes.
    let behind = pdb.names().unwrap().get(128).unwrap_err();
    assert_eq!((behind.kind, behind.name.as_deref()), (ErrorKind::UnexpectedEof, Some("/names")));
    assert!(behind.to_string().ends_with(" [stream /names byte 0x8c]"), "{behind}");
    assert!(Pdb::parse(b"MZ").unwrap_err().name.is_none());
}

#[test]
fn a_stream_that_is_said_to_be_large() {
    let file = sample();
    let pdb = Pdb::parse(&file).unwrap();
    let sizes: Vec<_> = (16..20).flat_map(|number| pdb.stream_size(number).unwrap().to_le_bytes()).collect();
    let large = [&sizes[..12], &0xffff_fff0_u32.to_le_bytes()].concat();
    let damaged = replaced(&file, &sizes, &large);
    let pdb = Pdb::parse(&damaged).unwrap();
    assert_eq!((pdb.stream_size(19), kind(pdb.stream(19))), (Ok(0xffff_fff0), Err(ErrorKind::UnexpectedEof)));
}

#[test]
fn identity_and_format() {
    let file = sample();
    let about = Pdb::parse(&file).unwrap().identity().unwrap();
    // As llvm-pdbutil says.
    let guid = "CAD5A44E-0F4E-3F06-4C4C-44205044422E";
    assert_eq!(about.guid.to_string(), guid);
    assert_eq!((about.version, about.signature, about.information_age, about.age()), (20000404, 3402998862, 1, 1));
    assert_eq!(about.debug.map(|it| (it.age, it.machine)), Some((1, 0x14c)));
    assert_eq!(about.features, Some(Features { vc140: true, ..Features::default() }));
    let digits = guid.replace('-', "");
    assert_eq!(about.key(KeyForm::Upper).unwrap(), format!("{digits}1"));
    assert_eq!(about.key(KeyForm::Lower).unwrap(), format!("{}1", digits.to_lowercase()));
    assert_eq!(about.key(KeyForm::Guid).unwrap(), guid);
    assert_eq!(Format::of(&file), Format::Msf7);
    let begin =
        [("MZ", Format::Image), ("BSJB", Format::Portable), ("MSCF", Format::Compressed), ("", Format::Unknown)];
    assert!(begin.iter().all(|(text, format)| Format::of(text.as_bytes()) == *format));
}

/// A row of whole bytes, or of bits.
fn row_of(row: &LayoutRow<'_>) -> (String, u64, u64) {
    let name = match row.kind {
        LayoutKind::Base { .. } => "base".to_string(),
        LayoutKind::VirtualBasePointer { .. } => "vbptr".to_string(),
        LayoutKind::VirtualFunctionPointer { .. } => "vfptr".to_string(),
        LayoutKind::Member { name, .. } => name.to_string(),
        LayoutKind::Hole => "hole".to_string(),
        LayoutKind::UnusedBits => "unused".to_string(),
        LayoutKind::VirtualBases => "virtual bases".to_string(),
        _ => unreachable!(),
    };
    match row.extent {
        Extent::Bytes(size) => (name, row.offset, size),
        Extent::Bits { first, count } => (name, 8 * row.offset + u64::from(first), count.into()),
        Extent::Unknown => (name, row.offset, u64::MAX),
    }
}

/// As clang lays the classes out (-Xclang -fdump-record-layouts).
#[test]
fn layouts() {
    let file = sample();
    let types = Pdb::parse(&file).unwrap().types().unwrap();
    let rows_of = |name: &str| {
        let layout = types.layout(name).unwrap().unwrap();
        let rows: LayoutIter<'_> = layout.iter();
        assert_eq!((rows.len(), rows.count()), (layout.len(), (&layout).into_iter().count()));
        (layout.size(), layout.iter().map(|it| row_of(&it)).collect::<Vec<_>>())
    };
    let (size, rows) = rows_of("Derived");
    let rows: Vec<_> = rows.iter().map(|(name, offset, size)| (name.as_str(), *offset, *size)).collect();
    let fields = [
        ("base", 0, 8),
        ("base", 8, 1),
        ("vbptr", 12, 4),
        ("grid", 20, 48),
        ("flags", 68, 8),
        ("compare", 76, 4),
        ("measure", 80, 4),
        ("axis", 84, 4),
        ("watched", 88, 4),
        ("inner", 92, 12),
        ("state", 104, 4),
        ("hole", 9, 3),
        ("hole", 16, 4),
        ("virtual bases", 108, 20),
    ];
    assert_eq!((size, rows), (128, fields.to_vec()));
    // The places of bits are told in bits. The record has no member for 16 bits without a name.
    let (size, rows) = rows_of("Flags");
    let rows: Vec<_> = rows.iter().map(|(name, offset, size)| (name.as_str(), *offset, *size)).collect();
    let fields = [("low", 0, 3), ("high", 3, 13), ("ready", 32, 1), ("hole", 2, 2), ("hole", 5, 3), ("unused", 33, 7)];
    assert_eq!((size, rows), (8, fields.to_vec()));
    let definitions = types.definitions().unwrap();
    let forward =
        types.iter().flatten().find(|it| it.row.is_forward() && it.name().unwrap().unwrap() == "Derived").unwrap();
    let defined = definitions.named("Derived").unwrap();
    assert_eq!(definitions.definition_of(forward.index), Ok(Some(defined[0])));
    assert_eq!((defined.len(), definitions.size_of(forward.index)), (1, Ok(Some(128))));
    assert_eq!(
        (definitions.definition_of(0x74), definitions.size_of(0x74), definitions.size_of(3)),
        (Ok(None), Ok(Some(4)), Ok(None))
    );
    assert_eq!(definitions.text_of(forward.index, "it").unwrap(), "Derived it");
    assert_eq!(
        (definitions.named("Missing"), types.layout("Missing"), types.layout("Code")),
        (Ok(vec![]), Ok(None), Ok(None))
    );
    let after_last = 0x1000 + types.count();
    assert_eq!(kind(definitions.layout_of(after_last)), Err(ErrorKind::TypeNotFound { index: after_last }));
}

#[test]
fn types_and_their_fields() {
    let file = sample();
    let types = Pdb::parse(&file).unwrap().types().unwrap();
    let all: Vec<_> = types.iter().collect::<Result<_, _>>().unwrap();
    assert_eq!(all.len(), types.count() as usize);
    for (at, ty) in all.iter().enumerate() {
        assert_eq!(ty.index as usize, 0x1000 + at);
        assert_eq!(types.get(ty.index).as_ref(), Ok(ty));
    }
    let derived = types.find("Derived").unwrap().unwrap();
    assert_eq!((derived.shape(), derived.row.number(), derived.row.is_forward()), (Shape::Class, Some(128), false));
    // By their names in the shape, which other shapes lack.
    assert_eq!((derived.row.size(), derived.row.fields()), (Some(128), derived.row.list_index()));
    assert_eq!((derived.row.vtable_shape(), derived.row.derived_from()), (Some(0x1001), None));
    assert_eq!((derived.row.offset(), derived.row.element_type(), derived.row.file_name()), (None, None, None));
    assert_eq!(derived.name().unwrap().unwrap(), "Derived");
    assert_eq!(derived.unique_name().unwrap().unwrap(), ".?AVDerived@@");
    let fields = types.fields(derived.row.list_index().unwrap()).unwrap();
    let members: Vec<_> =
        fields.iter().filter(|it| it.shape() == Shape::Member).map(|it| it.name.unwrap().to_string()).collect();
    assert_eq!(members, ["grid", "flags", "compare", "measure", "axis", "watched", "inner", "state"]);
    let methods: Vec<_> = fields.iter().filter(|it| it.shape() == Shape::Method).filter_map(|it| it.name).collect();
    assert_eq!(methods, ["Derived", "area", "share", "make"]);
    let scale = fields.iter().find(|it| it.name.is_some_and(|it| it == "scale")).unwrap();
    assert_eq!(types.get(scale.row.list_index().unwrap()).unwrap().methods().unwrap().unwrap().len(), 2);
    let grid = fields.iter().find(|it| it.name.is_some_and(|it| it == "grid")).unwrap();
    assert_eq!((grid.row.offset(), grid.row.field_type(), grid.row.is_direct()), (Some(20), Some(0x1008), None));
    let shared = fields.iter().find(|it| it.shape() == Shape::VirtualBaseClass).unwrap();
    assert_eq!((shared.row.is_direct(), shared.row.base_class()), (Some(true), Some(0x1004)));
    assert_eq!(types.get(grid.row.type_index().unwrap()).unwrap().dimensions().unwrap(), Some(vec![48]));
    let limit = types.find("shapes::Limit").unwrap().unwrap();
    let values: Vec<_> =
        types.fields(limit.row.list_index().unwrap()).unwrap().iter().map(|it| it.row.value()).collect();
    // Clang writes the number -5 without its sign.
    assert_eq!(values, [Some(0xffff_fffb), Some(70000)]);
    let code = types.find("Code").unwrap().unwrap();
    assert_eq!(types.fields(code.row.list_index().unwrap()).unwrap().len(), 800);
    assert_eq!(types.get(0x74).unwrap().shape(), Shape::Primitive);
    assert_eq!(types.get(0x74).unwrap().name(), Ok(None));
    assert_eq!(types.find("Missing").unwrap(), None);
    let after_last = 0x1000 + types.count();
    assert_eq!(kind(types.get(after_last)), Err(ErrorKind::TypeNotFound { index: after_last }));
    assert_eq!(kind(types.fields(derived.index)), Err(ErrorKind::UnimplementedTypeKind { kind: 0x1504 }));
}

/// Whether two iterators give the same, a step of each in turn.
fn are_alike(types: &Types) -> bool {
    let mut other = types.iter();
    types.iter().all(|it| other.next() == Some(it)) && other.next().is_none()
}

#[test]
fn iterators_beside_one_another() {
    let file = sample();
    let types = Pdb::parse(&file).unwrap().types().unwrap();
    let mut others = types.iter();
    for ty in &types {
        assert_eq!(others.next(), Some(ty));
        let mut third = types.iter();
        assert_eq!(third.next().unwrap().unwrap().index, types.first_index());
    }
    assert_eq!((others.next(), others.next()), (None, None));
    assert_eq!(types.iter().count(), types.count() as usize);
    assert!(are_alike(&types));
}

#[test]
fn ids_and_names() {
    let file = sample();
    let pdb = Pdb::parse(&file).unwrap();
    let ids = pdb.ids().unwrap();
    let all: Vec<_> = ids.iter().collect::<Result<_, _>>().unwrap();
    assert!(all.iter().any(|it| it.shape() == IdShape::Function && it.name().unwrap().unwrap() == "mainCRTStartup"));
    let build = all.iter().find(|it| it.shape() == IdShape::BuildInfo).unwrap().list().unwrap().unwrap();
    assert_eq!(ids.get(build[2]).unwrap().name().unwrap().unwrap(), "sample.cpp");
    assert_eq!(kind(ids.get(0xfff)), Err(ErrorKind::TypeNotFound { index: 0xfff }));
    let names = pdb.names().unwrap();
    let found: Vec<_> = names.iter().collect::<Result<_, _>>().unwrap();
    assert!(found.iter().any(|(_, name)| *name == "/sample/sample.cpp"));
    assert!(found.iter().all(|(offset, name)| names.get(*offset) == Ok(*name)));
    assert_eq!(kind(names.get(1 << 20)), Err(ErrorKind::UnexpectedEof));
}

#[test]
fn addresses_and_frames() {
    let file = sample();
    let pdb = Pdb::parse(&file).unwrap();
    let (sections, original) = (pdb.sections().unwrap(), pdb.original_sections().unwrap());
    let names: Vec<_> = sections.iter().map(|it| it.name().to_string()).collect();
    assert_eq!(names, [".text", ".rdata", ".data", ".reloc"]);
    assert_eq!((sections[0].virtual_size, original[0].virtual_size), (0x1a0, 0x1a1));
    assert_eq!((sections[2].virtual_address, sections[2].pointer_to_raw_data), (0x3000, 0x800));
    assert_eq!((sections[3].size_of_raw_data, sections[3].characteristics), (0x200, 0x4200_0040));
    let (map, to_src) = (pdb.address_map().unwrap(), pdb.omap_to_src().unwrap().unwrap());
    for address in 0x1000..0x1190 {
        let original = map.translate(Address::Rva(address)).unwrap().internal_rva.unwrap();
        assert_eq!(to_src.lookup(address), Ok(Some(original)));
        assert_eq!(map.translate(Address::InternalRva(original)).unwrap().rva, Some(address));
    }
    assert_eq!(map.translate(Address::InternalRva(0x1012)).unwrap().rva, None);
    let of_rva = map.translate(Address::Rva(0x1005)).unwrap();
    assert_eq!(of_rva.place, Some((1, 5)));
    assert_eq!(map.translate(Address::Place((1, 5))), Ok(of_rva));
    let internal_place = Address::InternalPlace(of_rva.internal_place.unwrap());
    assert_eq!(map.translate(internal_place), Ok(of_rva));
    assert_eq!(to_src.is_sorted(), Ok(true));
    assert!(
        to_src
            .records()
            .unwrap()
            .iter()
            .all(|(source, target)| to_src.lookup(*source).unwrap().unwrap_or(0) == *target)
    );
    assert_eq!(map.internal_rva_ranges(0x1000..0x1020), to_src.ranges(0x1000..0x1020));
    let frames = pdb.frames().unwrap();
    let (older, newer) = (frames.at(0x1000).unwrap().unwrap(), frames.at(0x10b1).unwrap().unwrap());
    assert_eq!((older.kind, older.code_start, older.code_size, older.program), (FrameKind::Fpo, 0x1000, 16, None));
    assert_eq!((newer.kind, newer.code_start, newer.saved_regs_size), (FrameKind::Data, 0x10b1, 4));
    assert_eq!((newer.max_stack_size, newer.is_function_start, newer.uses_base_pointer), (Some(0), false, false));
    assert!(frames.at(0x1010).unwrap().unwrap().is_function_start);
    assert_eq!(frames.at(0x100000), Ok(None));
    let all = frames.list().unwrap();
    assert!(
        all.windows(2).all(|it| it[0].code_start < it[1].code_start) && all.contains(&older) && all.contains(&newer)
    );
}

#[test]
fn a_record_that_cannot_be_read() {
    let file = sample();
    let types = Pdb::parse(&file).unwrap().types().unwrap();
    let modifier = types.iter().flatten().find(|it| it.shape() == Shape::Modifier).unwrap();
    // LF_LABEL, which the library does not read.
    let damaged = replaced(&file, modifier.record, &[0x0e, 0]);
    let types = Pdb::parse(&damaged).unwrap().types().unwrap();
    let (mut all, mut failed) = (types.iter(), Vec::new());
    let mut count = 0;
    while let Some(ty) = all.next() {
        count += 1;
        failed.extend(ty.err().map(|error| (all.index(), error)));
    }
    assert_eq!(count, types.count());
    assert_eq!(failed.len(), 1);
    let (index, error) = failed.remove(0);
    assert_eq!((index, error.kind), (modifier.index, ErrorKind::UnimplementedTypeKind { kind: 0xe }));
    assert_eq!(types.get(index).as_ref(), Err(&error));
    assert!(are_alike(&types));
    let stream = Pdb::parse(&damaged).unwrap().stream(2).unwrap();
    let record = types.iter().nth((index - types.first_index()) as usize - 1).unwrap().unwrap().record;
    let offset = stream.windows(record.len()).position(|it| it == record).unwrap() + record.len() + 2;
    assert_eq!((error.stream, error.offset), (Some(2), Some(offset as u32)));
    let wanted = format!("Support for types of kind 0x000e is not implemented [stream 2 byte {offset:#x}]");
    assert_eq!(error.to_string(), wanted);
}

#[test]
fn a_table_that_is_damaged() {
    let file = sample();
    // The header, two items, and the length of the third, which becomes too short for its kind.
    let front = Pdb::parse(&file).unwrap().stream_prefix(2, 110).unwrap();
    let mut shorter = front.clone();
    shorter[108] = 1;
    let damaged = replaced(&file, &front, &shorter);
    let types = Pdb::parse(&damaged).unwrap().types().unwrap();
    let all: Vec<_> = types.iter().collect();
    let [_, _, Err(error)] = &all[..] else { panic!("{all:?}") };
    assert_eq!((error.kind, error.stream), (ErrorKind::TypeTooShort, Some(2)));
    assert!(all[..2].iter().all(Result::is_ok));
    let mut fused = types.iter().skip(3);
    assert_eq!((fused.next(), fused.next()), (None, None));
    assert_eq!(kind(types.get(0x1002)), Err(ErrorKind::TypeTooShort));
}

/// Whether all types have a text, and no layout fails.
fn are_laid_out(types: &Types) -> bool {
    let Ok(definitions) = types.definitions() else { return false };
    let is_laid_out =
        |index| definitions.layout_of(index).is_ok_and(|it| it.is_none_or(|it| it.iter().count() == it.len()));
    (0x1000..0x1000 + types.count().min(1000)).all(|it| is_laid_out(it) && definitions.text_of(it, "it").is_ok())
}

/// Reads all that a file has, and counts what can't be read.
fn read_everything(pdb: &Pdb<'_>) -> usize {
    let mut failed = 0;
    let mut count = |is_read: bool| failed += usize::from(!is_read);
    (0..pdb.stream_count().min(1000)).for_each(|number| count(pdb.stream(number).is_ok()));
    count(pdb.information().is_ok());
    count(pdb.identity().is_ok_and(|it| it.key(KeyForm::Upper).is_ok()));
    count(pdb.named_streams().is_ok());
    count(pdb.names().and_then(|names| names.iter().collect::<Result<Vec<_>, _>>().map(|it| it.len())).is_ok());
    count(pdb.sections().is_ok() && pdb.original_sections().is_ok());
    let is_moved = |omap: Omap| {
        omap.ranges(0x1000..0x3000).is_ok()
            && omap.lookup(0x1005).is_ok()
            && omap.is_sorted().is_ok()
            && omap.records().is_ok()
    };
    count(pdb.omap_from_src().is_ok_and(|omap| omap.is_none_or(is_moved)));
    count(pdb.omap_to_src().is_ok_and(|omap| omap.is_none_or(is_moved)));
    count(pdb.address_map().is_ok_and(|map| {
        let forms = [
            Address::Rva(0x1005),
            Address::InternalRva(0x1005),
            Address::Place((1, 5)),
            Address::InternalPlace((1, 5)),
        ];
        let is_mapped = map.rva_ranges(0x1000..0x3000).is_ok() && map.internal_rva_ranges(0x1000..0x3000).is_ok();
        is_mapped && forms.iter().all(|it| map.translate(*it).is_ok())
    }));
    count(pdb.frames().is_ok_and(|frames| frames.at(0x1020).is_ok() && frames.list().is_ok()));
    count(pdb.types().is_ok_and(|types| types.find("Derived").is_ok() && types.layout("Derived").is_ok()));
    count(pdb.types().is_ok_and(|types| are_laid_out(&types)));
    assert!(pdb.types().map_or(true, |types| are_alike(&types)));
    match pdb.types() {
        Err(_) => count(false),
        Ok(types) => types.iter().for_each(|ty| {
            count(ty.is_ok_and(|ty| {
                ty.shape() != Shape::Primitive
                    && ty.name().is_ok()
                    && ty.unique_name().is_ok()
                    && ty.arguments().is_ok()
                    && ty.dimensions().is_ok()
                    && ty.methods().is_ok()
                    && ty
                        .row
                        .list_index()
                        .is_none_or(|list| types.fields(list).is_ok_and(|it| it.iter().count() == it.len()))
            }))
        }),
    }
    match pdb.ids() {
        Err(_) => count(false),
        Ok(ids) => ids.iter().for_each(|id| count(id.is_ok_and(|id| id.name().is_ok() && id.list().is_ok()))),
    }
    failed
}

#[test]
fn damaged_files() {
    let file = sample();
    let mut failed = 0;
    for (name, copy) in damaged(&file) {
        println!("{name}");
        failed += Pdb::parse(&copy).map_or(1, |pdb| read_everything(&pdb));
        assert_eq!(validate_all(&copy).unwrap().is_empty(), validate(&copy).unwrap().is_empty());
    }
    assert!(failed > 0);
}

#[test]
fn whole_and_not() {
    let file = sample();
    assert_eq!(validate(&file), Ok(vec![]));
    let found = validate(b"MZ").unwrap();
    assert_eq!(found.len(), 1);
    assert_eq!((found[0].part, found[0].stream, found[0].index), (Part::Header, None, None));
    assert_eq!(found[0].problem, Problem::Error(ErrorKind::UnrecognizedFileFormat));
    // The header, two items, and the length of the third, which becomes too short for its kind.
    let front = Pdb::parse(&file).unwrap().stream_prefix(2, 110).unwrap();
    let mut shorter = front.clone();
    shorter[108] = 1;
    let found = validate(&replaced(&file, &front, &shorter)).unwrap();
    assert_eq!(found.len(), 2);
    assert_eq!((found[0].part, found[0].stream, found[0].index), (Part::Types, Some(2), Some(0x1002)));
    assert_eq!(found[0].byte, Some(108));
    assert_eq!(found[0].problem, Problem::Error(ErrorKind::TypeTooShort));
    assert!(!found[0].is_warning && found[0].file_byte.is_some());
    // The place that is stored for a later item is not found any more.
    assert!(matches!(found[1].problem, Problem::Inconsistent(Inconsistency::IndexOffset, _)));
}

#[test]
fn no_program_database() {
    for file in [&b""[..], &[b'M'; 8192]] {
        assert_eq!(Pdb::parse(file).unwrap_err().kind, ErrorKind::UnrecognizedFileFormat);
    }
    fn is_error<E: std::error::Error + Send + Sync + 'static>(error: E) -> Box<dyn std::error::Error + Send + Sync> {
        error.into()
    }
    assert!(!is_error(Error::from(ErrorKind::OutOfMemory)).to_string().is_empty());
}

#[test]
fn another_thread() {
    let types = Pdb::parse(&sample()).unwrap().types().unwrap();
    let count = types.iter().count();
    let (types, elsewhere) = std::thread::spawn(move || {
        let count = types.iter().count();
        (types, count)
    })
    .join()
    .unwrap();
    assert_eq!((types.iter().count(), elsewhere), (count, count));
}

#[test]
fn look_ups_by_name_of_a_damaged_table() {
    let whole = sample();
    let derived = {
        let pdb = Pdb::parse(&whole).unwrap();
        let types = pdb.types().unwrap();
        types.find("Derived").unwrap().unwrap().record.to_vec()
    };
    let at = whole.windows(derived.len()).position(|it| it == derived).unwrap() - 2;
    let mut damaged = whole.clone();
    damaged[at..at + 2].copy_from_slice(&[1, 0]);
    let pdb = Pdb::parse(&damaged).unwrap();
    let types = pdb.types().unwrap();
    // The walk stops before it: what was not met is no missing type.
    assert!(types.find("Derived").is_err());
    assert!(types.layout("Derived").is_err());
    assert!(types.definitions().is_err() && are_alike(&types));
}

#[test]
fn what_is_printed_for_a_debugger_is_short() {
    let bytes = sample();
    let pdb = Pdb::parse(&bytes).unwrap();
    let (types, ids, names) = (pdb.types().unwrap(), pdb.ids().unwrap(), pdb.names().unwrap());
    for text in [format!("{pdb:?}"), format!("{types:?}"), format!("{ids:?}"), format!("{names:?}")] {
        assert!(text.len() < 100, "{text}");
    }
}

#[test]
fn names_are_bytes_and_text() {
    use pdb_container::{Name, NameIter};
    // With a glob import, this is still the standard library's.
    #[allow(unused_imports)]
    use pdb_container::*;
    fn first(mut names: NameIter<'_>) -> Result<Name<'_>, Box<dyn std::error::Error>> {
        Ok(names.next().ok_or("no name")??.1)
    }
    let bytes = sample();
    let names = Pdb::parse(&bytes).unwrap().names().unwrap();
    let name = first(names.iter()).unwrap();
    assert_eq!(name.as_ref(), name.as_bytes());
    assert_eq!(name, *name.as_bytes());
}

#[test]
fn maps_that_threads_share() {
    fn shared<T: Send + Sync>(it: T) -> T {
        it
    }
    let file = sample();
    let pdb = Pdb::parse(&file).unwrap();
    let names: Names = shared(pdb.names().unwrap());
    let types: Types = shared(pdb.types().unwrap());
    let (map, omap): (AddressMap, Omap) =
        (shared(pdb.address_map().unwrap()), shared(pdb.omap_from_src().unwrap().unwrap()));
    let frames: Frames = shared(pdb.frames().unwrap());
    let read = || {
        let moved: Vec<_> =
            (0x1000..0x1190).map(|it| (map.translate(Address::InternalRva(it)), omap.lookup(it))).collect();
        let named: Vec<_> = types.iter().map(|it| it.unwrap()).map(|it| (it, it.name(), it.unique_name())).collect();
        (moved, names.iter().map(Result::unwrap).collect::<Vec<_>>(), frames.list().unwrap(), named)
    };
    let wanted = read();
    std::thread::scope(|scope| {
        let threads: Vec<_> = (0..8).map(|_| scope.spawn(|| (0..50).all(|_| read() == wanted))).collect();
        assert!(threads.into_iter().all(|it| it.join().unwrap()));
    });
}
