// The kinds of records: their numbers in pdb_container.h, their names, and the groups among which one chooses.
import { HAS } from "./structures.js";

export const SHAPE = {
  CLASS: 1, MEMBER_FUNCTION: 3, BASE_CLASS: 8, VIRTUAL_BASE_CLASS: 9, PROCEDURE: 11, POINTER: 12, MODIFIER: 13,
  ENUMERATION: 14, ENUMERATE: 15, ARRAY: 16, UNION: 17, BITFIELD: 18, FIELD_LIST: 19, ARGUMENT_LIST: 20,
  METHOD_LIST: 21, VIRTUAL_TABLE_SHAPE: 22, UNREAD: 31,
};
const FORWARD_REFERENCE = 0x80;

const CLASSES = ["CLASS", "STRUCTURE", "INTERFACE"];
const CLASS_WORDS = ["class", "struct", "__interface"];
const NAMES = [
  "NULL", "CLASS", "MEMBER", "MFUNCTION", "METHOD", "ONEMETHOD", "STMEMBER", "NESTTYPE", "BCLASS", "VBCLASS", "VFUNCTAB",
  "PROCEDURE", "POINTER", "MODIFIER", "ENUM", "ENUMERATE", "ARRAY", "UNION", "BITFIELD", "FIELDLIST", "ARGLIST",
  "METHODLIST", "VTSHAPE",
];
export const ID = { FUNCTION: 32, MEMBER_FUNCTION: 33, BUILD_INFO: 34, STRING_LIST: 35, STRING: 36, TYPE_SOURCE: 37 };
const ID_NAMES = ["FUNC_ID", "MFUNC_ID", "BUILDINFO", "SUBSTR_LIST", "STRING_ID", "UDT_SRC_LINE"];

/** What a table keeps of a record in a byte: its shape, the kind of a class, and whether it is only declared. */
export function codeOf(status, shape, kind, properties) {
  if (status) return SHAPE.UNREAD;
  const declared = isNamed(shape) && properties & FORWARD_REFERENCE;
  return shape | (shape === SHAPE.CLASS ? kind << 5 : 0) | (declared ? 0x80 : 0);
}

export const shapeOf = (code) => code & 31;
export const isDeclaredOnly = (code) => code >= 0x80;

const ofShapes = (...shapes) => (code) => shapes.includes(shapeOf(code));
export const isClass = ofShapes(SHAPE.CLASS, SHAPE.UNION);
export const isNamed = ofShapes(SHAPE.CLASS, SHAPE.UNION, SHAPE.ENUMERATION);
export const isList = ofShapes(SHAPE.FIELD_LIST, SHAPE.ARGUMENT_LIST, SHAPE.METHOD_LIST, SHAPE.VIRTUAL_TABLE_SHAPE);

const shapeName = (shape, kind) => `LF_${shape === SHAPE.CLASS ? CLASSES[kind & 3] : NAMES[shape]}`;

/** The name of a record's kind in cvinfo.h. */
export const kindName = (code) => (shapeOf(code) === SHAPE.UNREAD ? "not read" : shapeName(shapeOf(code), code >> 5));

/** The name of a field's kind. An indirect virtual base class has one of its own, and so has an interface as a base. */
export function fieldKindName({ shape, kind }) {
  if (shape === SHAPE.VIRTUAL_BASE_CLASS && !kind) return "LF_IVBCLASS";
  if (shape === SHAPE.BASE_CLASS && CLASSES[kind] === "INTERFACE") return "LF_BINTERFACE";
  return shapeName(shape, kind);
}

/** The name of an id's kind. The source line of a type has another kind if it names a module. */
export function idKindName({ shape, has }) {
  return shape === ID.TYPE_SOURCE && has & HAS.thirdIndex ? "LF_UDT_MOD_SRC_LINE" : `LF_${ID_NAMES[shape - ID.FUNCTION]}`;
}

/** What C++ calls a class or a union. */
export const classWord = (code) => (shapeOf(code) === SHAPE.UNION ? "union" : CLASS_WORDS[(code >> 5) & 3]);

/** The groups of records, each with the test of a code. */
export const GROUPS = {
  "Classes and unions": (code) => isClass(code) && !isDeclaredOnly(code),
  Enumerations: (code) => shapeOf(code) === SHAPE.ENUMERATION && !isDeclaredOnly(code),
  "Declarations only": isDeclaredOnly,
  "Pointers and references": ofShapes(SHAPE.POINTER),
  Arrays: ofShapes(SHAPE.ARRAY),
  Functions: ofShapes(SHAPE.PROCEDURE, SHAPE.MEMBER_FUNCTION),
  "Modifiers and bit fields": ofShapes(SHAPE.MODIFIER, SHAPE.BITFIELD),
  "Lists and table shapes": isList,
  "Not read": ofShapes(SHAPE.UNREAD),
  "All records": () => true,
};
