//! Stand-in for the crate `ristretto_classfile`: only the types that descriptor.rs and finder.rs name.
//! The reader in src/class.rs fills them.
use std::marker::PhantomData;

#[derive(Clone, Debug, PartialEq)]
pub enum Constant {
    Utf8(String),
    Integer(i32),
    Float(u32),
    Long(i64),
    Double(u64),
    Class(u16),
    String(u16),
    FieldRef(u16, u16),
    MethodRef(u16, u16),
    InterfaceMethodRef(u16, u16),
    NameAndType(u16, u16),
    MethodHandle(u8, u16),
    MethodType(u16),
    Dynamic(u16, u16),
    InvokeDynamic(u16, u16),
    Module(u16),
    Package(u16),
}

/// Index 0 and the second index of a long or double hold None.
#[derive(Clone, Debug, Default)]
pub struct ConstantPool {
    pub constants: Vec<Option<Constant>>,
}

impl ConstantPool {
    pub fn get(&self, index: u16) -> Option<&Constant> {
        self.constants.get(index as usize).and_then(|c| c.as_ref())
    }
}

#[derive(Clone, Debug, Default)]
pub struct ClassFile<'a> {
    pub constant_pool: ConstantPool,
    pub attributes: Vec<attributes::Attribute>,
    pub marker: PhantomData<&'a ()>,
}

impl ClassFile<'static> {
    /// For the finders of finder.rs that look into files, which the comparison has no use for.
    pub fn from_bytes(_: &[u8]) -> Result<Self, &'static str> {
        Err("no class file is read here")
    }
}

pub mod attributes {
    macro_rules! flags {
        ($name:ident { $($f:ident = $v:expr),* $(,)? }) => {
            #[derive(Clone, Copy, Debug, Default, Eq, PartialEq, Hash)]
            pub struct $name(u16);
            #[allow(dead_code)]
            impl $name {
                $(pub const $f: $name = $name($v);)*
                pub const fn empty() -> Self { $name(0) }
                pub const fn all() -> Self { $name(0 $(| $v)*) }
                pub const fn bits(&self) -> u16 { self.0 }
                pub const fn from_bits_truncate(b: u16) -> Self { $name(b & Self::all().0) }
                /// Keeps every bit (the set's 'other flag bits mean nothing').
                pub const fn from_bits_retain(b: u16) -> Self { $name(b) }
                pub const fn contains(&self, o: Self) -> bool { self.0 & o.0 == o.0 }
            }
        };
    }
    flags!(ModuleAccessFlags { OPEN = 0x0020, SYNTHETIC = 0x1000, MANDATED = 0x8000 });
    flags!(RequiresFlags { TRANSITIVE = 0x0020, STATIC_PHASE = 0x0040, SYNTHETIC = 0x1000, MANDATED = 0x8000 });
    flags!(ExportsFlags { SYNTHETIC = 0x1000, MANDATED = 0x8000 });
    flags!(OpensFlags { SYNTHETIC = 0x1000, MANDATED = 0x8000 });

    #[derive(Clone, Debug, PartialEq)]
    pub struct Requires {
        pub index: u16,
        pub flags: RequiresFlags,
        pub version_index: u16,
    }
    #[derive(Clone, Debug, PartialEq)]
    pub struct Exports {
        pub index: u16,
        pub flags: ExportsFlags,
        pub to_index: Vec<u16>,
    }
    #[derive(Clone, Debug, PartialEq)]
    pub struct Opens {
        pub index: u16,
        pub flags: OpensFlags,
        pub to_index: Vec<u16>,
    }
    #[derive(Clone, Debug, PartialEq)]
    pub struct Provides {
        pub index: u16,
        pub with_index: Vec<u16>,
    }
    #[derive(Clone, Debug, PartialEq)]
    pub struct ModuleAttribute {
        pub module_name_index: u16,
        pub flags: ModuleAccessFlags,
        pub version_index: u16,
        pub requires: Vec<Requires>,
        pub exports: Vec<Exports>,
        pub opens: Vec<Opens>,
        pub uses: Vec<u16>,
        pub provides: Vec<Provides>,
    }
    #[derive(Clone, Debug, PartialEq)]
    pub enum Attribute {
        Module { name_index: u16, module: Box<ModuleAttribute> },
        ModulePackages { name_index: u16, package_indexes: Vec<u16> },
        ModuleMainClass { name_index: u16, main_class_index: u16 },
        Unknown { name_index: u16, info: Vec<u8> },
    }
}
