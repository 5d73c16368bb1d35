// What `pdb_validate` finds, in the words of `pdbdump validate`.
import { textOf } from "./errors.js";
import { Finding } from "./structures.js";

const PARTS = [
  "header", "directory", "sizes", "stream", "stream names", "string table", "stream roles", "types", "ids",
  "section headers", "original section headers", "OMAP to source", "OMAP from source", "old frames", "new frames",
];

const UNRECOGNIZED_FILE_FORMAT = 1;
const NO_HEADER = "not a program database of version 7.00, or cut within its first 4,096 bytes";

const hexadecimal = (number) => `0x${number.toString(16)}`;

/** The text of each inconsistency, by its number. */
const INCONSISTENCIES = [
  undefined,
  () => "the directory is larger than the file",
  () => "the streams together are larger than the file",
  () => "the records are out of order",
  (page) => `page ${page} is used twice`,
  (page) => `page ${page} is in use and marked as free`,
  (stream) => `stream ${stream} has a name or a role and is missing`,
  () => "the parts of stream 3 do not add up to its size",
  (index) => `a reference to index ${hexadecimal(index)} is not below the record's own`,
  () => "the record does not end at a multiple of four bytes",
  (kind) => `records of kind ${hexadecimal(kind)} are not read`,
  (count) => `there are ${count} hash values for other records`,
  (value) => `hash value ${value} is not below the number of buckets`,
  (index) => `the place of index ${hexadecimal(index)} is not that of its record`,
  () => "the string table ends before its buckets do",
  (offset) => `no name begins at offset ${offset}`,
  (count) => `the buckets do not hold ${count} names`,
  () => "the section begins below the end of the one before it",
  (number) => `the number of the free page map is ${number}, and neither 1 nor 2`,
  (count) => `the file has fewer than the ${count} pages that are in use`,
  (version) => `version ${version} is not known`,
  (machine) => `machine ${hexadecimal(machine)} is not known`,
  (count) => `the table of names does not have ${count} streams`,
  (number) => `the records do not end where the number ${number} in the header says`,
  (size) => `no table has hashes of this size or as many buckets: ${size}`,
  () => "the records have no hash stream",
  (size) => `a part of ${size} bytes does not fit the hash stream`,
  (offset) => `the hash of the name at offset ${offset} does not lead to its bucket`,
  () => "the entry of the module ends behind the list of modules",
  (stream) => `a module takes more bytes than there are in stream ${stream}`,
  (version) => `no hash table of symbols has signature or version ${hexadecimal(version)}`,
  () => "the hash table of symbols does not have the size it says",
  () => "the parts of the publics do not add up to their stream",
  () => "the record of the symbol ends behind its stream",
];

/** The first thing that is wrong in each part of a file. */
export function findingsOf(native, file) {
  const problem = ({ status, first, second }) =>
    status === UNRECOGNIZED_FILE_FORMAT ? NO_HEADER : textOf(native.library.error(status, first, second));
  const found = native.rows(Finding, "pdb_validate", file.at, file.length, 0).slice();
  return found.map((finding) => ({
    part: PARTS[finding.part],
    isWarning: Boolean(finding.isWarning),
    problem: INCONSISTENCIES[finding.inconsistency]?.(finding.number) ?? problem(finding.fault),
    stream: finding.hasStream ? finding.stream : undefined,
    index: finding.hasIndex ? finding.index : undefined,
    byte: finding.hasByte ? finding.byte : undefined,
    fileByte: finding.hasFileByte ? finding.fileByte : undefined,
  }));
}
