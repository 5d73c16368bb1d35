use crate::sys;

macro_rules! flags {
    ($($(#[$about:meta])* $name:ident($word:ident) { $($(#[$of:meta])* $method:ident = $mask:ident;)* })*) => {
        $(
            $(#[$about])*
            #[derive(Debug, Clone, Copy, Default, PartialEq, Eq, Hash)]
            pub struct $name(pub(super) $word);

            impl $name {
                $(
                    $(#[$of])*
                    pub fn $method(self) -> bool {
                        u32::from(self.0) & sys::$mask != 0
                    }
                )*
            }
        )*
    };
}

flags! {
    /// The properties of a class, a union or an enumeration.
    TypeProperties(u16) {
        /// Whether it is packed.
        packed = PDB_PROPERTY_PACKED;
        /// Whether it has constructors or destructors.
        constructors = PDB_PROPERTY_CONSTRUCTORS;
        /// Whether it has overloaded operators.
        overloaded_operators = PDB_PROPERTY_OVERLOADED_OPERATORS;
        /// Whether it is declared in another type.
        is_nested_type = PDB_PROPERTY_NESTED;
        /// Whether other types are declared in it.
        contains_nested_types = PDB_PROPERTY_CONTAINS_NESTED;
        /// Whether it has overloaded assignments.
        overloaded_assignment = PDB_PROPERTY_OVERLOADED_ASSIGNMENT;
        /// Whether it has methods that cast it.
        overloaded_casting = PDB_PROPERTY_CASTING_METHODS;
        /// Whether it is only declared here, and defined by another record.
        forward_reference = PDB_PROPERTY_FORWARD_REFERENCE;
        /// Whether it is defined in a scope.
        scoped_definition = PDB_PROPERTY_SCOPED;
        /// Whether it has a unique name.
        has_unique_name = PDB_PROPERTY_HAS_UNIQUE_NAME;
        /// Whether no class may derive from it.
        sealed = PDB_PROPERTY_SEALED;
        /// Whether it is an intrinsic type.
        intrinsic_type = PDB_PROPERTY_INTRINSIC;
    }
    /// The attributes of a field.
    FieldAttributes(u16) {}
    /// The attributes of a function.
    FunctionAttributes(u16) {
        /// Whether it returns a class as C++ does.
        cxx_return_udt = PDB_FUNCTION_CXX_RETURN_UDT;
        /// Whether it is a constructor.
        is_constructor = PDB_FUNCTION_CONSTRUCTOR;
        /// Whether it is a constructor of a class with virtual base classes.
        is_constructor_with_virtual_bases = PDB_FUNCTION_CONSTRUCTOR_WITH_VIRTUAL_BASES;
    }
    /// The attributes of a pointer.
    PointerAttributes(u32) {
        /// Whether it is flat, of 32 bits.
        is_flat_32 = PDB_POINTER_FLAT_32;
        /// Whether it is volatile itself.
        is_volatile = PDB_POINTER_VOLATILE;
        /// Whether it is constant itself.
        is_const = PDB_POINTER_CONST;
        /// Whether what it points to is not aligned.
        is_unaligned = PDB_POINTER_UNALIGNED;
        /// Whether nothing else points to the same.
        is_restrict = PDB_POINTER_RESTRICT;
        /// Whether it is a pointer of C++/CX.
        is_mocom = PDB_POINTER_MOCOM;
    }
}

impl TypeProperties {
    /// The kind of a homogeneous aggregate of floating-point numbers, 0 if it is none.
    pub fn hfa(self) -> u8 {
        (u32::from(self.0) & sys::PDB_PROPERTY_HFA_MASK).checked_shr(11).unwrap_or_default() as u8
    }

    /// Which kind of a class of C++/CX it is, 0 if it is none.
    pub fn mocom(self) -> u8 {
        (u32::from(self.0) & sys::PDB_PROPERTY_MOCOM_MASK).checked_shr(14).unwrap_or_default() as u8
    }
}

impl FieldAttributes {
    /// Who may access the field: 1 if it is private, 2 if protected, 3 if public.
    pub fn access(self) -> u8 {
        (u32::from(self.0) & sys::PDB_FIELD_ACCESS_MASK) as u8
    }

    /// Whether the method is static.
    pub fn is_static(self) -> bool {
        self.method() == sys::PDB_FIELD_METHOD_STATIC
    }

    /// Whether the method is virtual.
    pub fn is_virtual(self) -> bool {
        self.method() == sys::PDB_FIELD_METHOD_VIRTUAL
    }

    /// Whether the method is virtual and has no body.
    pub fn is_pure_virtual(self) -> bool {
        self.method() == sys::PDB_FIELD_METHOD_PURE_VIRTUAL
    }

    /// Whether the method takes an entry of its own in the table of virtual functions.
    pub fn is_intro_virtual(self) -> bool {
        matches!(self.method(), sys::PDB_FIELD_METHOD_INTRO | sys::PDB_FIELD_METHOD_PURE_INTRO)
    }

    fn method(self) -> u32 {
        u32::from(self.0) & sys::PDB_FIELD_METHOD_MASK
    }
}

impl FunctionAttributes {
    /// The calling convention, as CV_call_e numbers it.
    pub fn calling_convention(self) -> u8 {
        (u32::from(self.0) & sys::PDB_FUNCTION_CALLING_CONVENTION_MASK) as u8
    }
}

/// The kind of a pointer.
#[derive(Debug, Clone, Copy, PartialEq, Eq, Hash)]
pub enum PointerKind {
    /// 16 bits, within a segment.
    Near16,
    /// A segment and 16 bits.
    Far16,
    /// A segment and 16 bits, where sums carry into the segment.
    Huge16,
    /// Based on a segment.
    BaseSeg,
    /// Based on a value.
    BaseVal,
    /// Based on the segment of a value.
    BaseSegVal,
    /// Based on the address of a symbol.
    BaseAddr,
    /// Based on the segment of a symbol's address.
    BaseSegAddr,
    /// Based on a type.
    BaseType,
    /// Based on itself.
    BaseSelf,
    /// 32 bits.
    Near32,
    /// A segment and 32 bits.
    Far32,
    /// 64 bits.
    Ptr64,
}

/// What a pointer is in the source.
#[derive(Debug, Clone, Copy, PartialEq, Eq, Hash)]
pub enum PointerMode {
    /// A plain pointer.
    Pointer,
    /// An lvalue reference.
    LValueReference,
    /// A pointer to a data member.
    Member,
    /// A pointer to a method.
    MemberFunction,
    /// An rvalue reference.
    RValueReference,
}

impl PointerAttributes {
    /// Its kind.
    pub fn pointer_kind(self) -> PointerKind {
        use PointerKind::*;
        let kinds = [
            Near16,
            Far16,
            Huge16,
            BaseSeg,
            BaseVal,
            BaseSegVal,
            BaseAddr,
            BaseSegAddr,
            BaseType,
            BaseSelf,
            Near32,
            Far32,
            Ptr64,
        ];
        // The library reads no pointer of another kind.
        kinds[((self.0 & sys::PDB_POINTER_KIND_MASK) as usize).min(kinds.len() - 1)]
    }

    /// Its mode.
    pub fn pointer_mode(self) -> PointerMode {
        use PointerMode::*;
        let modes = [Pointer, LValueReference, Member, MemberFunction, RValueReference];
        // The library reads no pointer of another mode.
        modes[((self.0 & sys::PDB_POINTER_MODE_MASK) as usize >> 5).min(modes.len() - 1)]
    }

    /// Its size in bytes: the one that the record says, or else that of its kind, 0 if that says none.
    pub fn size(self) -> u8 {
        match ((self.0 & sys::PDB_POINTER_SIZE_MASK) >> 13, self.pointer_kind()) {
            (0, PointerKind::Near32 | PointerKind::Far32) => 4,
            (0, PointerKind::Ptr64) => 8,
            (size, _) => size as u8,
        }
    }

    /// Whether it is a pointer to a member.
    pub fn pointer_to_member(self) -> bool {
        matches!(self.pointer_mode(), PointerMode::Member | PointerMode::MemberFunction)
    }

    /// Whether it is a reference.
    pub fn is_reference(self) -> bool {
        matches!(self.pointer_mode(), PointerMode::LValueReference | PointerMode::RValueReference)
    }
}
