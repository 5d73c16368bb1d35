//! The module with the names of the crate `pdb`, compared with the crate's own names over examples/sample.pdb.

use std::error::Error;
use std::fs::File;
use std::io::Cursor;

use damaged::damaged;
use pdb_container::pdb::{self, FallibleIterator};
use pdb_container::{Pdb, Shape};

mod damaged;

const SAMPLE: &str = concat!(env!("CARGO_MANIFEST_DIR"), "/../examples/sample.pdb");

fn open() -> pdb::PDB<'static, File> {
    pdb::PDB::open(File::open(SAMPLE).unwrap()).unwrap()
}

#[test]
fn types() -> Result<(), Box<dyn Error>> {
    let (bytes, mut file) = (std::fs::read(SAMPLE)?, open());
    let (ours, table) = (Pdb::parse(&bytes)?.types()?, file.type_information()?);
    let (mut finder, mut iter, mut count) = (table.finder(), table.iter(), 0);
    assert_eq!((table.len(), finder.max_index()), (91, pdb::TypeIndex(0x105a)));
    while let Some(item) = iter.next()? {
        finder.update(&iter);
        let (it, data) = (ours.get(item.index().0)?, item.parse()?);
        assert_eq!(u16::from_le_bytes([it.record[0], it.record[1]]), item.raw_kind());
        assert_eq!(data.name().map(|name| name.as_bytes()), it.name()?.map(|name| name.as_bytes()));
        assert_eq!(finder.find(item.index())?.parse()?, data);
        check(&ours, &finder, &it, &data)?;
        count += 1;
    }
    assert_eq!(count, table.len());
    assert!(matches!(finder.find(pdb::TypeIndex(0x105b)), Err(pdb::Error::TypeNotFound(0x105b))));
    let primitive = finder.find(pdb::TypeIndex(0x674))?;
    let wanted = pdb::PrimitiveType { kind: pdb::PrimitiveKind::I32, indirection: Some(pdb::Indirection::Near64) };
    assert_eq!((primitive.parse()?, primitive.raw_kind()), (pdb::TypeData::Primitive(wanted), 0xffff));
    Ok(())
}

/// Compares what a record says under both names.
fn check(
    types: &pdb_container::Types,
    finder: &pdb::TypeFinder,
    it: &pdb_container::Type,
    data: &pdb::TypeData,
) -> Result<(), Box<dyn Error>> {
    let index = |it: Option<pdb::TypeIndex>| it.map(|it| it.0);
    match data {
        pdb::TypeData::Class(class) => {
            assert_eq!(it.shape(), Shape::Class);
            assert_eq!((Some(class.size), index(class.fields)), (it.row.number(), it.row.list_index()));
            assert_eq!(class.properties.forward_reference(), it.row.is_forward());
            assert_eq!(class.unique_name.unwrap().as_bytes(), it.unique_name()?.unwrap().as_bytes());
        }
        pdb::TypeData::FieldList(list) => {
            let mut fields = list.fields.clone();
            let mut next = list.continuation;
            while let Some(more) = next {
                let found = finder.find(more)?.parse()?;
                let pdb::TypeData::FieldList(list) = found else { panic!("{more} is no list of fields") };
                fields.extend(list.fields.clone());
                next = list.continuation;
            }
            let ours = types.fields(it.index)?;
            let names: Vec<_> = ours.iter().map(|it| it.name.unwrap_or_default().to_string()).collect();
            let theirs: Vec<_> =
                fields.iter().map(|it| it.name().unwrap_or_default().to_string().into_owned()).collect();
            assert_eq!(theirs, names);
            for (ours, theirs) in ours.iter().zip(&fields) {
                match theirs {
                    pdb::TypeData::Member(it) => {
                        assert_eq!((Some(it.offset), Some(it.field_type.0)), (ours.row.number(), ours.row.type_index()))
                    }
                    pdb::TypeData::Enumerate(it) => {
                        assert_eq!(it.value.to_string(), ours.row.value().unwrap().to_string())
                    }
                    pdb::TypeData::BaseClass(it) => assert_eq!(Some(it.base_class.0), ours.row.type_index()),
                    _ => {}
                }
            }
        }
        pdb::TypeData::Array(array) => assert_eq!(Some(array.dimensions.clone()), it.dimensions()?),
        pdb::TypeData::ArgumentList(list) => {
            assert_eq!(Some(list.arguments.iter().map(|it| it.0).collect()), it.arguments()?)
        }
        pdb::TypeData::MethodList(list) => assert_eq!(list.methods.len(), it.methods()?.unwrap().len()),
        pdb::TypeData::Pointer(pointer) => {
            assert_eq!(pointer.attributes.size(), 4);
            assert_eq!(pointer.containing_class.is_some(), pointer.attributes.pointer_to_member());
        }
        _ => {}
    }
    Ok(())
}

#[test]
fn frames() -> Result<(), Box<dyn Error>> {
    let bytes = std::fs::read(SAMPLE)?;
    let (ours, theirs) = (Pdb::parse(&bytes)?.frames()?, open().frame_table()?);
    let starts: Vec<_> = theirs.iter().map(|it| Ok(it.code_start.0)).collect()?;
    assert_eq!(starts, ours.list()?.iter().map(|it| it.code_start).collect::<Vec<_>>());
    for address in (0..0x1200).chain([u32::MAX]) {
        let first = theirs.iter_at_rva(pdb::PdbInternalRva(address)).next()?;
        assert_eq!(first.map(|it| it.code_start.0), ours.at(address)?.map(|it| it.code_start), "{address:#x}");
    }
    Ok(())
}

#[test]
fn errors_and_damage() {
    let error = pdb::PDB::open(Cursor::new(b"no database")).unwrap_err();
    assert!(matches!(error, pdb::Error::UnrecognizedFileFormat));
    assert!(!error.to_string().is_empty());
    let bytes = std::fs::read(SAMPLE).unwrap();
    let mut failed = 0;
    for (name, copy) in damaged(&bytes) {
        println!("{name}");
        failed += read_all(copy).unwrap_or(1);
    }
    assert!(failed > 0);
}

/// Reads all that there is, and counts what can't be read.
fn read_all(bytes: Vec<u8>) -> Result<usize, pdb::Error> {
    let mut file = pdb::PDB::open(Cursor::new(bytes))?;
    let mut failed = unread(file.type_information()) + unread(file.id_information());
    let mut count = |is_read: bool| failed += usize::from(!is_read);
    count(file.pdb_information().is_ok_and(|it| it.stream_names().is_ok()));
    count(file.string_table().is_ok());
    count(file.sections().is_ok_and(|it| it.unwrap_or_default().iter().all(|it| it.name().len() <= 8)));
    count(
        file.frame_table()
            .is_ok_and(|it| it.iter_at_rva(pdb::PdbInternalRva(0x1020)).count().is_ok() && it.iter().count().is_ok()),
    );
    count(
        file.address_map()
            .is_ok_and(|map| (0..0x2000).any(|it| pdb::Rva(0x1000 + it).to_internal_offset(&map).is_some())),
    );
    (0..32).for_each(|number| count(file.raw_stream(pdb::StreamIndex(number)).is_ok()));
    Ok(failed)
}

/// How many items of a table can't be read; the table counts as one. A finder has what the walk has.
fn unread<I: pdb::ItemIndex>(table: Result<pdb::ItemInformation<'_, I>, pdb::Error>) -> usize {
    let Ok(table) = table else { return 1 };
    let (finder, mut failed) = (table.finder(), 0);
    let walked = table.iter().for_each(|item| {
        let is_read = item.parse().is_ok();
        assert_eq!(finder.find(item.index()).and_then(|it| it.parse()).is_ok(), is_read);
        failed += usize::from(!is_read);
        Ok(())
    });
    failed + usize::from(walked.is_err())
}
