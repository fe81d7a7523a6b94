//! Types, fields and the few functions of arrow that the source names.

pub mod datatypes {
    use std::fmt;
    use std::ops::Deref;
    use std::sync::Arc;

    pub const DECIMAL32_MAX_PRECISION: u8 = 9;
    pub const DECIMAL32_MAX_SCALE: i8 = 9;
    pub const DECIMAL64_MAX_PRECISION: u8 = 18;
    pub const DECIMAL64_MAX_SCALE: i8 = 18;
    pub const DECIMAL128_MAX_PRECISION: u8 = 38;
    pub const DECIMAL128_MAX_SCALE: i8 = 38;
    pub const DECIMAL256_MAX_PRECISION: u8 = 76;
    pub const DECIMAL256_MAX_SCALE: i8 = 76;

    #[derive(Debug, Clone, Copy, PartialEq, Eq)]
    pub enum TimeUnit {
        Second,
        Millisecond,
        Microsecond,
        Nanosecond,
    }

    #[derive(Debug, Clone, Copy, PartialEq, Eq)]
    pub enum IntervalUnit {
        YearMonth,
        DayTime,
        MonthDayNano,
    }

    #[derive(Debug, Clone, Copy, PartialEq, Eq)]
    pub enum UnionMode {
        Sparse,
    }

    /// A name, a type and whether values may be missing; field metadata never reach us.
    #[derive(Debug, Clone, PartialEq, Eq)]
    pub struct Field {
        name: String,
        data_type: DataType,
        nullable: bool,
    }

    pub type FieldRef = Arc<Field>;

    impl Field {
        pub fn new(name: impl Into<String>, data_type: DataType, nullable: bool) -> Self {
            Field { name: name.into(), data_type, nullable }
        }

        pub fn name(&self) -> &String {
            &self.name
        }

        pub fn data_type(&self) -> &DataType {
            &self.data_type
        }

        pub fn is_nullable(&self) -> bool {
            self.nullable
        }

        pub fn with_data_type(mut self, data_type: DataType) -> Self {
            self.data_type = data_type;
            self
        }

        pub fn with_nullable(mut self, nullable: bool) -> Self {
            self.nullable = nullable;
            self
        }
    }

    #[derive(Debug, Clone, PartialEq, Eq)]
    pub struct Fields(Arc<[FieldRef]>);

    impl From<Vec<FieldRef>> for Fields {
        fn from(fields: Vec<FieldRef>) -> Self {
            Fields(fields.into())
        }
    }

    impl Deref for Fields {
        type Target = [FieldRef];

        fn deref(&self) -> &[FieldRef] {
            &self.0
        }
    }

    /// The kinds of docs/FORMAT.md, and Union because the source matches on it.
    #[derive(Debug, Clone, PartialEq, Eq)]
    pub enum DataType {
        Null,
        Boolean,
        Int8,
        Int16,
        Int32,
        Int64,
        UInt8,
        UInt16,
        UInt32,
        UInt64,
        Float16,
        Float32,
        Float64,
        Decimal32(u8, i8),
        Decimal64(u8, i8),
        Decimal128(u8, i8),
        Decimal256(u8, i8),
        Date32,
        Date64,
        Time32(TimeUnit),
        Time64(TimeUnit),
        Timestamp(TimeUnit, Option<Arc<str>>),
        Interval(IntervalUnit),
        Duration(TimeUnit),
        Utf8,
        LargeUtf8,
        Utf8View,
        Binary,
        LargeBinary,
        BinaryView,
        FixedSizeBinary(i32),
        List(FieldRef),
        LargeList(FieldRef),
        FixedSizeList(FieldRef, i32),
        Struct(Fields),
        Map(FieldRef, bool),
        Dictionary(Box<DataType>, Box<DataType>),
        RunEndEncoded(FieldRef, FieldRef),
        Union(Arc<[(i8, FieldRef)]>, UnionMode),
    }

    impl fmt::Display for DataType {
        fn fmt(&self, f: &mut fmt::Formatter<'_>) -> fmt::Result {
            write!(f, "{self:?}")
        }
    }

    impl DataType {
        /// Kinds 3 to 17: integers, floats and decimals.
        pub fn is_numeric(&self) -> bool {
            (3..=17).contains(&crate::sheet::kind_of(self))
        }

        /// Kinds 14 to 17.
        pub fn is_decimal(&self) -> bool {
            (14..=17).contains(&crate::sheet::kind_of(self))
        }

        pub fn is_integer(&self) -> bool {
            (3..=10).contains(&crate::sheet::kind_of(self))
        }

        pub fn is_temporal(&self) -> bool {
            (18..=24).contains(&crate::sheet::kind_of(self))
        }

        /// Alike: field names are left out at every depth; kinds, figures, zones,
        /// the sorted bit and the nullability of parts are compared.
        pub fn equals_datatype(&self, other: &DataType) -> bool {
            use DataType::*;
            match (self, other) {
                (List(a), List(b)) | (LargeList(a), LargeList(b)) => alike_field(a, b),
                (FixedSizeList(a, n), FixedSizeList(b, m)) => n == m && alike_field(a, b),
                (Struct(a), Struct(b)) => {
                    a.len() == b.len() && a.iter().zip(b.iter()).all(|(a, b)| alike_field(a, b))
                }
                (Map(a, s), Map(b, t)) => s == t && alike_field(a, b),
                (Dictionary(i, v), Dictionary(j, w)) => {
                    i.equals_datatype(j) && v.equals_datatype(w)
                }
                (RunEndEncoded(r, v), RunEndEncoded(q, w)) => {
                    alike_field(r, q) && alike_field(v, w)
                }
                _ => self == other,
            }
        }
    }

    fn alike_field(a: &Field, b: &Field) -> bool {
        a.nullable == b.nullable && a.data_type.equals_datatype(&b.data_type)
    }
}

pub mod compute {
    use super::datatypes::DataType;
    use std::cell::Cell;

    thread_local! {
        static NULL_MASK: Cell<u64> = const { Cell::new(0) };
    }

    /// Lends the mask from which `can_cast_types` answers until the next call of this.
    pub fn set_null_mask(mask: u64) {
        NULL_MASK.with(|cell| cell.set(mask));
    }

    /// Whether Null may become `to`: the mask's bit for the kind of `to`.
    pub fn can_cast_types(from: &DataType, to: &DataType) -> bool {
        assert!(*from == DataType::Null, "only Null is ever asked about");
        NULL_MASK.with(Cell::get) >> crate::sheet::kind_of(to) & 1 == 1
    }

    pub mod kernels {
        /// Arithmetic on columns, which no answer of the port reaches.
        pub mod numeric {
            use crate::standin::arrow::array::ArrayRef;
            use crate::standin::arrow::error::{ArrowError, Result};

            pub fn none(_left: &ArrayRef, _right: &ArrayRef) -> Result<ArrayRef> {
                Err(ArrowError)
            }

            pub use none as add_wrapping;
            pub use none as sub_wrapping;
            pub use none as mul_wrapping;
            pub use none as div;
            pub use none as rem;
        }
    }
}

pub mod array {
    use super::datatypes::DataType;
    use std::sync::Arc;

    pub trait Array {
        fn data_type(&self) -> &DataType;
    }

    pub type ArrayRef = Arc<dyn Array>;

    struct Empty(DataType);

    impl Array for Empty {
        fn data_type(&self) -> &DataType {
            &self.0
        }
    }

    pub fn new_empty_array(data_type: &DataType) -> ArrayRef {
        Arc::new(Empty(data_type.clone()))
    }
}

pub mod error {
    use std::fmt;

    #[derive(Debug)]
    pub struct ArrowError;

    impl fmt::Display for ArrowError {
        fn fmt(&self, f: &mut fmt::Formatter<'_>) -> fmt::Result {
            f.write_str("arithmetic has no stand-in")
        }
    }

    pub type Result<T> = std::result::Result<T, ArrowError>;
}
