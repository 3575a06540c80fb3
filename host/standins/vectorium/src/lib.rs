//! Stand-in, written from document 01: documents as offsets, components and values; the dot product from +0 over rising
//! components; and the order of found ranges (greater score first by total order, then smaller start, then smaller length).
use num_traits::{AsPrimitive, ToPrimitive};
use std::cmp::Ordering;
use std::hash::Hash;
use std::marker::PhantomData;
use std::ops::Range;

pub trait ComponentType:
    AsPrimitive<usize> + Copy + Ord + Eq + Hash + Default + std::fmt::Debug + Send + Sync + 'static
{
}
impl ComponentType for u32 {}

pub trait ValueType: ToPrimitive + Copy + PartialOrd + Default + std::fmt::Debug + Send + Sync + 'static {}
impl ValueType for f32 {}

pub trait FromF32 {}
impl FromF32 for f32 {}

pub trait SpaceUsage {
    fn space_usage_bytes(&self) -> usize;
}
impl SpaceUsage for usize {
    fn space_usage_bytes(&self) -> usize {
        8
    }
}
impl SpaceUsage for u32 {
    fn space_usage_bytes(&self) -> usize {
        4
    }
}
impl SpaceUsage for f32 {
    fn space_usage_bytes(&self) -> usize {
        4
    }
}
impl SpaceUsage for u8 {
    fn space_usage_bytes(&self) -> usize {
        1
    }
}
impl<T: SpaceUsage> SpaceUsage for Box<[T]> {
    fn space_usage_bytes(&self) -> usize {
        self.iter().map(|x| x.space_usage_bytes()).sum()
    }
}

// ---- distances
pub trait Distance: Copy {
    fn distance(&self) -> f32;
}

#[derive(Clone, Copy, Debug)]
pub struct DotProduct(pub f32);

impl Distance for DotProduct {
    #[inline]
    fn distance(&self) -> f32 {
        self.0
    }
}

pub mod dataset {
    use super::*;

    #[derive(Clone, Debug)]
    pub struct ScoredRange<D> {
        pub distance: D,
        pub range: Range<usize>,
    }

    impl<D: Distance> Ord for ScoredRange<D> {
        #[inline]
        fn cmp(&self, other: &Self) -> Ordering {
            other
                .distance
                .distance()
                .total_cmp(&self.distance.distance())
                .then(self.range.start.cmp(&other.range.start))
                .then(self.range.len().cmp(&other.range.len()))
        }
    }
    impl<D: Distance> PartialOrd for ScoredRange<D> {
        #[inline]
        fn partial_cmp(&self, other: &Self) -> Option<Ordering> {
            Some(self.cmp(other))
        }
    }
    impl<D: Distance> PartialEq for ScoredRange<D> {
        fn eq(&self, other: &Self) -> bool {
            self.cmp(other) == Ordering::Equal
        }
    }
    impl<D: Distance> Eq for ScoredRange<D> {}
}

// ---- vectors
#[derive(Clone, Copy, Debug)]
pub struct SparseVectorView<'a, C, V> {
    components: &'a [C],
    values: &'a [V],
}

impl<'a, C, V> SparseVectorView<'a, C, V> {
    #[inline]
    pub fn new(components: &'a [C], values: &'a [V]) -> Self {
        SparseVectorView { components, values }
    }
    #[inline]
    pub fn components(&self) -> &'a [C] {
        self.components
    }
    #[inline]
    pub fn values(&self) -> &'a [V] {
        self.values
    }
}

// ---- encoders and evaluators
pub trait QueryEvaluator<V> {
    type Distance;
    fn compute_distance(&self, vector: V) -> Self::Distance;
}

pub trait VectorEncoder: Sync {
    type Distance;
    type EncodedVector<'a>: Copy;
    type Evaluator<'e>: for<'a> QueryEvaluator<Self::EncodedVector<'a>, Distance = Self::Distance>
    where
        Self: 'e;
    fn vector_evaluator<'e>(&'e self, vector: Self::EncodedVector<'_>) -> Self::Evaluator<'e>;
}

pub mod vector_encoder {
    use super::*;

    pub trait SparseDataEncoder:
        for<'a> VectorEncoder<
        EncodedVector<'a> = SparseVectorView<
            'a,
            <Self as SparseDataEncoder>::OutputComponentType,
            <Self as SparseDataEncoder>::OutputValueType,
        >,
    >
    {
        type OutputComponentType: ComponentType;
        type OutputValueType: ValueType;
    }

    pub trait SparseVectorEncoder: SparseDataEncoder {}
    pub trait PackedSparseVectorEncoder: SparseDataEncoder {}
}
pub use vector_encoder::SparseVectorEncoder;

#[derive(Clone, Debug)]
pub struct PlainSparseQuantizer<C, V, D> {
    dim: usize,
    kind: PhantomData<(C, V, D)>,
}

impl<C, V, D> PlainSparseQuantizer<C, V, D> {
    pub fn new(dim: usize, _: usize) -> Self {
        PlainSparseQuantizer {
            dim,
            kind: PhantomData,
        }
    }
}

/// A query laid out densely, as the original's crate does below a million components. A component that the query lacks adds a
/// product that is a zero, which changes no sum that starts at +0.
pub struct DenseEvaluator<'e, C, V> {
    dense: Vec<f32>,
    kind: PhantomData<(&'e (), C, V)>,
}

impl<C: ComponentType, V: ValueType> DenseEvaluator<'_, C, V> {
    pub fn new(dim: usize, query: SparseVectorView<'_, C, V>) -> Self {
        let top = query.components().last().map_or(0, |&c| c.as_() + 1);
        let mut dense = vec![0_f32; dim.max(top)];
        for (&c, v) in query.components().iter().zip(query.values()) {
            dense[c.as_()] = v.to_f32().unwrap();
        }
        DenseEvaluator {
            dense,
            kind: PhantomData,
        }
    }
}

impl<'a, C: ComponentType, V: ValueType> QueryEvaluator<SparseVectorView<'a, C, V>>
    for DenseEvaluator<'_, C, V>
{
    type Distance = DotProduct;
    #[inline]
    fn compute_distance(&self, vector: SparseVectorView<'a, C, V>) -> DotProduct {
        let mut sum = 0_f32;
        for (&c, v) in vector.components().iter().zip(vector.values()) {
            let c: usize = c.as_();
            // SAFETY: the harness hands over documents whose components are below the dimension, and the layout is as long.
            let q = unsafe { *self.dense.get_unchecked(c) };
            sum += v.to_f32().unwrap() * q;
        }
        DotProduct(sum)
    }
}

impl<C: ComponentType, V: ValueType> VectorEncoder for PlainSparseQuantizer<C, V, DotProduct> {
    type Distance = DotProduct;
    type EncodedVector<'a> = SparseVectorView<'a, C, V>;
    type Evaluator<'e> = DenseEvaluator<'e, C, V>;
    fn vector_evaluator<'e>(&'e self, vector: SparseVectorView<'_, C, V>) -> DenseEvaluator<'e, C, V> {
        DenseEvaluator::new(self.dim, vector)
    }
}
impl<C: ComponentType, V: ValueType> vector_encoder::SparseDataEncoder
    for PlainSparseQuantizer<C, V, DotProduct>
{
    type OutputComponentType = C;
    type OutputValueType = V;
}
impl<C: ComponentType, V: ValueType> SparseVectorEncoder for PlainSparseQuantizer<C, V, DotProduct> {}

// ---- prefetching
/// What the source asks for before it reads a range: each cache line of the range's components and values is fetched ahead. It is off
/// until it is turned on, and does nothing on a machine that is not x86-64.
pub mod prefetch {
    use std::sync::atomic::{AtomicBool, Ordering};

    static ON: AtomicBool = AtomicBool::new(false);
    const LINE: usize = 64;

    pub fn turn(on: bool) {
        ON.store(on, Ordering::Relaxed);
    }

    #[inline]
    pub fn is_on() -> bool {
        ON.load(Ordering::Relaxed)
    }

    /// One fetch for each line in which some of the slice lies.
    #[inline]
    pub fn lines<T>(slice: &[T]) {
        let first = slice.as_ptr() as usize / LINE * LINE;
        let end = slice.as_ptr() as usize + std::mem::size_of_val(slice);
        let mut at = first;
        while at < end {
            line(at);
            at += LINE;
        }
    }

    #[cfg(target_arch = "x86_64")]
    #[inline]
    fn line(at: usize) {
        use std::arch::x86_64::{_mm_prefetch, _MM_HINT_T0};
        // sound: a prefetch reads nothing, whatever the address
        unsafe { _mm_prefetch::<_MM_HINT_T0>(at as *const i8) }
    }

    #[cfg(not(target_arch = "x86_64"))]
    #[inline]
    fn line(_: usize) {}
}

// ---- datasets
pub trait Dataset {
    type Encoder: VectorEncoder;
    fn len(&self) -> usize;
    fn is_empty(&self) -> bool {
        self.len() == 0
    }
    fn input_dim(&self) -> usize;
    fn nnz(&self) -> usize;
    fn encoder(&self) -> &Self::Encoder;
    fn get(&self, id: u64) -> <Self::Encoder as VectorEncoder>::EncodedVector<'_>;
    fn range_from_id(&self, id: u64) -> Range<usize>;
    fn get_with_range(&self, range: Range<usize>) -> <Self::Encoder as VectorEncoder>::EncodedVector<'_>;
    fn prefetch_with_range(&self, range: Range<usize>);
    fn iter<'a>(&'a self) -> impl Iterator<Item = <Self::Encoder as VectorEncoder>::EncodedVector<'a>>
    where
        Self: 'a,
    {
        (0..self.len() as u64).map(move |i| self.get(i))
    }
}

pub trait SparseData: Dataset {}

pub trait DatasetGrowable<C, V> {
    fn push(&mut self, vector: SparseVectorView<'_, C, V>);
}

macro_rules! sparse_dataset {
    ($name:ident) => {
        pub struct $name<E: vector_encoder::SparseDataEncoder> {
            pub encoder: E,
            pub dim: usize,
            pub offsets: Vec<usize>,
            pub components: Vec<E::OutputComponentType>,
            pub values: Vec<E::OutputValueType>,
        }

        impl<E: vector_encoder::SparseDataEncoder> Dataset for $name<E> {
            type Encoder = E;
            #[inline]
            fn len(&self) -> usize {
                self.offsets.len() - 1
            }
            #[inline]
            fn input_dim(&self) -> usize {
                self.dim
            }
            fn nnz(&self) -> usize {
                self.components.len()
            }
            #[inline]
            fn encoder(&self) -> &E {
                &self.encoder
            }
            #[inline]
            fn get(&self, id: u64) -> <E as VectorEncoder>::EncodedVector<'_> {
                self.get_with_range(self.range_from_id(id))
            }
            #[inline]
            fn range_from_id(&self, id: u64) -> Range<usize> {
                self.offsets[id as usize]..self.offsets[id as usize + 1]
            }
            #[inline]
            fn get_with_range(&self, range: Range<usize>) -> <E as VectorEncoder>::EncodedVector<'_> {
                SparseVectorView::new(&self.components[range.clone()], &self.values[range])
            }
            #[inline]
            fn prefetch_with_range(&self, range: Range<usize>) {
                if prefetch::is_on() {
                    prefetch::lines(&self.components[range.clone()]);
                    prefetch::lines(&self.values[range]);
                }
            }
        }
        impl<E: vector_encoder::SparseDataEncoder> SparseData for $name<E> {}
    };
}
sparse_dataset!(SparseDataset);
sparse_dataset!(SparseDatasetGrowable);
sparse_dataset!(PackedSparseDataset);
sparse_dataset!(PackedSparseDatasetGrowable);

impl<C: ComponentType, V: ValueType> SparseDatasetGrowable<PlainSparseQuantizer<C, V, DotProduct>> {
    pub fn new(encoder: PlainSparseQuantizer<C, V, DotProduct>) -> Self {
        SparseDatasetGrowable {
            dim: encoder.dim,
            encoder,
            offsets: vec![0],
            components: Vec::new(),
            values: Vec::new(),
        }
    }
}

impl<E: vector_encoder::SparseDataEncoder> DatasetGrowable<E::OutputComponentType, E::OutputValueType>
    for SparseDatasetGrowable<E>
{
    fn push(&mut self, vector: SparseVectorView<'_, E::OutputComponentType, E::OutputValueType>) {
        self.components.extend_from_slice(vector.components());
        self.values.extend_from_slice(vector.values());
        self.offsets.push(self.components.len());
    }
}

impl<E: vector_encoder::SparseDataEncoder> From<SparseDatasetGrowable<E>> for SparseDataset<E> {
    fn from(d: SparseDatasetGrowable<E>) -> Self {
        SparseDataset {
            encoder: d.encoder,
            dim: d.dim,
            offsets: d.offsets,
            components: d.components,
            values: d.values,
        }
    }
}
